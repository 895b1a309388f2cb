//! How often each kind of plan came up, and each way in which one is taken or refused.

use crate::call::{Buffers, Call};
use crate::compare::Case;
use crate::model;
use crate::plan_cases::READ_BACK;
use crate::planned;
use crate::plans::{self, is_of_bad_length, MOST, RECORD};
use lugloquat::sys::Answer;
use std::collections::BTreeMap;

/// Each comes up at least so often in a run of the default length.
const LEAST: u64 = 20;

/// A plan read, or the bytes that one is written to; its sheet; and what was answered.
struct Plan<'a> {
    n: usize,
    sheet: &'a [u64],
    bytes: &'a [u8],
    answer: &'a Answer,
}

/// What may be said of a plan, by name.
type Ways = &'static [(&'static str, fn(&Plan) -> bool)];

const OF_READING: Ways = &[
    ("accepted, no record", |plan| plan.is(0) && plan.bytes.is_empty()),
    ("accepted, 4,095 records", |plan| plan.is(0) && plan.records() == 4_095),
    ("accepted, 4,096 records", |plan| plan.is(0) && plan.records() == 4_096),
    ("9, no record", |plan| plan.is(9) && plan.bytes.is_empty()),
    ("2, and a length to refuse", |plan| {
        plan.is(2) && is_of_bad_length(plan.bytes.len())
    }),
    ("9, and a length to refuse", |plan| {
        plan.is(9) && is_of_bad_length(plan.bytes.len())
    }),
    ("13, under 32,768 bytes", |plan| plan.is(13) && plan.bytes.len() < MOST),
    ("13, 32,769 bytes", |plan| plan.is(13) && plan.bytes.len() == MOST + 1),
    ("13, 32,776 bytes", |plan| plan.is(13) && plan.bytes.len() == MOST + 8),
    ("14, the letter alone", |plan| plan.misses(0)),
    ("14, the first space alone", |plan| plan.misses(1)),
    ("14, the second space alone", |plan| plan.misses(4)),
    ("14, the line feed alone", |plan| plan.misses(7)),
    ("14, one digit alone", |plan| [2, 3, 5, 6].iter().any(|&at| plan.misses(at))),
    ("14, and a vertex to refuse", |plan| {
        plan.is(14) && plan.outside() != [false, false]
    }),
    ("3, the first vertex alone", |plan| {
        plan.is(3) && plan.outside() == [true, false]
    }),
    ("3, the second vertex alone", |plan| {
        plan.is(3) && plan.outside() == [false, true]
    }),
    ("at the first record of several", |plan| {
        plan.place() == 1 && plan.records() > 1
    }),
    ("at the last record of several", |plan| {
        plan.place() > 1 && plan.place() == plan.records()
    }),
    ("at a record between", |plan| {
        plan.place() > 1 && plan.place() < plan.records()
    }),
    ("past record 256", |plan| plan.place() > 256),
];

const OF_WRITING: Ways = &[
    ("accepted, no edge", |plan| plan.is(0) && plan.answer.value == 0),
    ("accepted, into as many bytes as there are", |plan| {
        plan.is(0) && plan.answer.value as usize == plan.bytes.len()
    }),
    ("accepted, and bytes left", |plan| {
        plan.is(0) && (plan.answer.value as usize) < plan.bytes.len()
    }),
    ("10, one byte fewer than 8 an edge", |plan| {
        plan.is(10) && plan.bytes.len() + 1 == RECORD * model::set_bits(plan.n, plan.sheet) as usize
    }),
];

/// A record.
const FORM: [u8; RECORD] = *b"L 00 00\n";

impl Plan<'_> {
    fn is(&self, number: u64) -> bool {
        self.answer.number == number
    }

    fn place(&self) -> usize {
        self.answer.place as usize
    }

    fn records(&self) -> usize {
        self.bytes.len() / RECORD
    }

    /// The record that was refused.
    fn refused(&self) -> &[u8] {
        let before = RECORD * (self.place() - 1);
        &self.bytes[before..before + RECORD]
    }

    /// Whether the record was refused by 14 for this byte alone.
    fn misses(&self, at: usize) -> bool {
        self.is(14) && {
            let mut record = self.refused().to_vec();
            record[at] = FORM[at];
            plans::record(&record).is_some()
        }
    }

    /// Whether the vertices of the refused record are n or more, where they are digits.
    fn outside(&self) -> [bool; 2] {
        match plans::vertices(self.refused()) {
            Some((from, to)) => [from >= self.n, to >= self.n],
            None => [false, false],
        }
    }
}

pub struct PlanTally {
    read: u64,
    written: u64,
    records: u64,
    kinds: BTreeMap<&'static str, u64>,
    ways: BTreeMap<(&'static str, &'static str), u64>,
}

impl PlanTally {
    pub fn new() -> PlanTally {
        let ways = |call, ways: Ways| ways.iter().map(move |&(way, _)| ((call, way), 0));
        PlanTally {
            read: 0,
            written: 0,
            records: 0,
            kinds: planned::kinds().chain([READ_BACK]).map(|kind| (kind, 0)).collect(),
            ways: ways("read_plan", OF_READING).chain(ways("write_plan", OF_WRITING)).collect(),
        }
    }

    /// Enters a case, if it is one of a plan, and says whether its kind is one of plans.
    pub fn enter(&mut self, case: &Case, answer: &Answer) -> bool {
        let Buffers { sheet, bytes } = &case.lent;
        let plan = Plan { n: case.n, sheet, bytes, answer };
        let ways = match case.call {
            Call::ReadPlan => {
                self.read += 1;
                self.records += if plan.is(0) { plan.records() } else { plan.place() } as u64;
                OF_READING
            }
            Call::WritePlan => {
                self.written += 1;
                OF_WRITING
            }
            _ => return false,
        };
        for (way, _) in ways.iter().filter(|(_, holds)| holds(&plan)) {
            *self.ways.entry((case.call.name(), way)).or_default() += 1;
        }
        match self.kinds.get_mut(case.kind) {
            Some(times) => *times += 1,
            None => return false,
        }
        true
    }

    pub fn print(&self) {
        println!(
            "plans: {} read, {} records; {} written",
            self.read, self.records, self.written
        );
        for (kind, times) in &self.kinds {
            println!("plans read, {kind}: {times}");
        }
        for ((call, way), times) in &self.ways {
            println!("{call}, {way}: {times}");
        }
    }

    /// Whether everything came up that has to.
    pub fn check(&self) -> Result<(), String> {
        let kinds = self.kinds.iter().map(|(&kind, &times)| ("read_plan", kind, times));
        let ways = self.ways.iter().map(|(&(call, way), &times)| (call, way, times));
        match kinds.chain(ways).find(|&(_, _, times)| times < LEAST) {
            Some((call, what, times)) => Err(format!("{call}, {what}: {times}, fewer than {LEAST}")),
            None => Ok(()),
        }
    }
}
