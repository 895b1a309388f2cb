//! The blocks of work that are timed. Every block leaves the words as they were.

use crate::{
    plain::{add_counts, count_from_scratch, PLAIN},
    timing::{take_turns, Bytes, Contender, Spent, Words},
    work::{At, Work, PATH},
};
use calls::{Call, Edges, Program, Slices, OURS};
use lugloquat::sys::Answer;
use std::{
    hint::black_box,
    ops::Range,
    time::{Duration, Instant},
};

/// The words and bytes of one contender. Of a small sheet there are several copies, one after the other, so that one pass over
/// them takes long enough to be timed.
pub struct Desk {
    sheets: Words,
    bytes: Bytes,
    words: usize,
}

/// The words that the copies of a small sheet fill, about.
const FILLED: usize = 2112;

impl Desk {
    pub fn new(work: &Work) -> Desk {
        let words = work.sheet.len();
        let sheets = Words::new(&work.sheet.repeat((FILLED / words).max(1)));
        let bytes = Bytes::new(work.paths.len().max(work.plan.len()));
        Desk { sheets, bytes, words }
    }

    /// Puts these bytes at the beginning of the contender's, and lends them with the first sheet.
    fn with(&mut self, bytes: &[u8]) -> (&mut [u64], &mut [u8]) {
        let (sheet, lent) = (&mut self.sheets[..self.words], &mut self.bytes[..bytes.len()]);
        lent.copy_from_slice(bytes);
        (sheet, lent)
    }

    fn sheet(&mut self) -> &mut [u64] {
        &mut self.sheets[..self.words]
    }

    fn copies(&self) -> usize {
        self.sheets.len() / self.words
    }

    fn check(&self, work: &Work) {
        assert!(
            self.sheets.chunks_exact(self.words).all(|sheet| sheet == work.sheet),
            "a block changed the sheet"
        );
    }
}

/// A block, run by a program so many times.
pub type Block = fn(&Program, &mut Desk, &Work, usize) -> Spent;

/// The median times of ours and plain C, and beside them, if wanted, of from scratch and the floor.
pub fn against(work: &Work, block: Block, beside: bool, runs: usize) -> Vec<[f64; 2]> {
    let mut desks: Vec<Desk> = (0..4).map(|_| Desk::new(work)).collect();
    let [ours, plain, scratch, floor] = &mut desks[..] else {
        unreachable!("there are four desks")
    };
    let mut contenders = vec![
        Contender::new(|rounds| block(black_box(&OURS), ours, work, rounds)),
        Contender::new(|rounds| block(black_box(&PLAIN), plain, work, rounds)),
    ];
    if beside {
        contenders.push(Contender::new(|rounds| self::scratch(scratch, work, rounds)));
        contenders.push(Contender::new(|rounds| self::floor(floor, work, rounds)));
    }
    take_turns(&mut contenders, runs)
}

/// Deletes edges, and inserts them again.
pub fn edges(program: &Program, desk: &mut Desk, work: &Work, rounds: usize) -> Spent {
    edits(program, desk, work, rounds, &work.edges, |&(from, to)| Edges::one(from, to))
}

/// Deletes all edges at some vertices, and inserts them again.
pub fn vertices(program: &Program, desk: &mut Desk, work: &Work, rounds: usize) -> Spent {
    let named = |&(v, predecessors, successors): &At| Edges::at(v, predecessors, successors);
    edits(program, desk, work, rounds, &work.vertices, named)
}

/// Deletes the edges that each of the things names, and inserts them again from the last on, on every copy of the sheet.
fn edits<T>(program: &Program, desk: &mut Desk, work: &Work, rounds: usize, things: &[T], named: impl Fn(&T) -> Edges) -> Spent {
    let (n, mut spent) = (work.n(), Spent::default());
    for _ in 0..rounds {
        spent.parts[0] += on_copies(program, desk, n, things.iter(), |thing| Call::Delete(named(thing)));
        spent.parts[1] += on_copies(program, desk, n, things.iter().rev(), |thing| Call::Insert(named(thing)));
    }
    desk.check(work);
    Spent { calls: rounds * things.len() * desk.copies(), ..spent }
}

/// Makes the call of each of the things on every copy of the sheet, and says how long that took.
fn on_copies<T>(
    program: &Program,
    desk: &mut Desk,
    n: usize,
    things: impl Iterator<Item = T> + Clone,
    call: impl Fn(T) -> Call,
) -> Duration {
    let (words, start) = (desk.words, Instant::now());
    for sheet in desk.sheets.chunks_exact_mut(words) {
        let make = |thing| program.make(n, &call(thing), Slices::of_sheet(sheet));
        black_box(once(things.clone(), make));
    }
    start.elapsed()
}

/// Makes a call for each of the things, so many times over. Beside what was spent stands the sum of the values.
fn each<T>(things: impl ExactSizeIterator<Item = T> + Clone, rounds: usize, mut make: impl FnMut(T) -> Answer) -> (Spent, u64) {
    let mut sum = 0u64;
    let start = Instant::now();
    for _ in 0..rounds {
        sum = sum.wrapping_add(once(things.clone(), &mut make));
    }
    let sum = black_box(sum);
    (Spent::since(start, rounds * things.len()), sum)
}

/// Makes a call for each of the things, and adds up the values. It stands alone so that its loop has the registers to itself.
#[inline(never)]
fn once<T>(things: impl Iterator<Item = T>, mut make: impl FnMut(T) -> Answer) -> u64 {
    things.fold(0, |sum: u64, thing| sum.wrapping_add(make(thing).value))
}

pub fn validate(program: &Program, desk: &mut Desk, work: &Work, rounds: usize) -> Spent {
    let (n, sheet) = (work.n(), desk.sheet());
    let make = move |()| program.make(n, &Call::Validate, Slices::of_sheet(sheet));
    let (spent, sum) = each([()].into_iter(), rounds, make);
    assert_eq!(sum, rounds as u64, "the sheet is valid");
    spent
}

/// The counts are right beforehand; all of them are written all the same.
pub fn recount(program: &Program, desk: &mut Desk, work: &Work, rounds: usize) -> Spent {
    let (n, sheet) = (work.n(), desk.sheet());
    let make = move |()| program.make(n, &Call::Recount, Slices::of_sheet(sheet));
    let (spent, _) = each([()].into_iter(), rounds, make);
    desk.check(work);
    spent
}

/// Every pair of vertices.
pub fn path_count(program: &Program, desk: &mut Desk, work: &Work, rounds: usize) -> Spent {
    let (n, sheet) = (work.n(), desk.sheet());
    let make = move |&(from, to): &(usize, usize)| program.make(n, &Call::PathCount { from, to }, Slices::of_sheet(sheet));
    each(work.pairs.iter(), rounds, make).0
}

pub fn reaches_without(program: &Program, desk: &mut Desk, work: &Work, rounds: usize) -> Spent {
    let (n, sheet) = (work.n(), desk.sheet());
    let make = move |&[from, to, edge_from, edge_to]: &[usize; 4]| {
        let call = Call::ReachesWithout { from, to, edge_from, edge_to };
        program.make(n, &call, Slices::of_sheet(sheet))
    };
    each(work.without.iter(), rounds, make).0
}

pub fn unrank(program: &Program, desk: &mut Desk, work: &Work, rounds: usize) -> Spent {
    let (n, (sheet, bytes)) = (work.n(), desk.with(&[0; PATH]));
    let make = move |&(from, to, k): &(usize, usize, u64)| {
        let call = Call::Unrank { from, to, k };
        program.make(n, &call, Slices { sheet, bytes })
    };
    each(work.numbers.iter(), rounds, make).0
}

pub fn rank(program: &Program, desk: &mut Desk, work: &Work, rounds: usize) -> Spent {
    let (n, (sheet, paths)) = (work.n(), desk.with(&work.paths));
    let make = move |place: &Range<usize>| {
        let bytes = &mut paths[place.clone()];
        program.make(n, &Call::Rank, Slices { sheet, bytes })
    };
    each(work.places.iter(), rounds, make).0
}

/// Reads the whole graph onto the empty sheet, which is made so while the clock doesn't count.
pub fn read_plan(program: &Program, desk: &mut Desk, work: &Work, rounds: usize) -> Spent {
    let (mut sum, mut spent) = (0, Spent::default());
    let (n, (sheet, bytes)) = (work.n(), desk.with(&work.plan));
    for _ in 0..rounds {
        sum += program.make(n, &Call::Empty, Slices::of_sheet(sheet)).value;
        let start = Instant::now();
        sum += program.make(n, &Call::ReadPlan, Slices { sheet, bytes }).value;
        spent.parts[0] += start.elapsed();
    }
    black_box(sum);
    desk.check(work);
    Spent { calls: rounds, ..spent }
}

pub fn write_plan(program: &Program, desk: &mut Desk, work: &Work, rounds: usize) -> Spent {
    let (n, (sheet, bytes)) = (work.n(), desk.with(&work.plan));
    let make = move |()| program.make(n, &Call::WritePlan, Slices { sheet, bytes });
    each([()].into_iter(), rounds, make).0
}

/// Works all counts out from scratch.
pub fn scratch(desk: &mut Desk, work: &Work, rounds: usize) -> Spent {
    let sheet = desk.sheet();
    let start = Instant::now();
    (0..rounds).for_each(|_| count_from_scratch(work.n(), sheet));
    let spent = Spent::since(start, rounds);
    desk.check(work);
    spent
}

/// Reads and adds up all counts.
pub fn floor(desk: &mut Desk, work: &Work, rounds: usize) -> Spent {
    let sheet = desk.sheet();
    let start = Instant::now();
    let sum = (0..rounds).fold(0u64, |sum, _| sum.wrapping_add(add_counts(work.n(), sheet)));
    black_box(sum);
    Spent::since(start, rounds)
}
