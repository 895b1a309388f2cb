//! The random cases of plans: one read, one written, and one written and read back.

use crate::arguments::vertices;
use crate::call::{accepted, Buffers, Call, Model};
use crate::cases;
use crate::compare::{Case, Wanted};
use crate::damaged;
use crate::graphs;
use crate::model::{self, Graph};
use crate::planned::{self, AND_BACK};
use crate::plans::RECORD;
use crate::rng::Rng;
use crate::sheets;

/// Who says what a plan read has to leave.
pub const WRITTEN: &str = "the sheet that was written";
pub const UNDONE: &str = "the start of the plan";

/// The kind of a plan that is read back.
pub const READ_BACK: &str = "a plan that was written";

/// One plan read in so many has a length about the greatest, and one of these in so many any number of vertices.
const LONG: usize = 20;
const LARGE: usize = 12;

/// One read, one written, or one written and read back. What is read back is what the model writes.
pub fn make(rng: &mut Rng, model: Model) -> Vec<Case> {
    match rng.below(8) {
        0..=4 => vec![read(rng)],
        5 | 6 => vec![write(rng)],
        _ => there_and_back(rng, model).into(),
    }
}

/// The kind is that of the plan, but of a sheet that is not valid, or of other sizes than n's, that of the sheet.
fn read(rng: &mut Rng) -> Case {
    let long = rng.one_in(LONG);
    let (n, sheet, kind) = if rng.one_in(3) {
        cases::of_any_sizes(rng)
    } else if long && !rng.one_in(LARGE) {
        valid(2 + rng.below(7), rng)
    } else {
        valid(vertices(rng), rng)
    };
    let right_sizes = model::check_sizes(n, &sheet).is_ok();
    let graph = if right_sizes {
        model::graph_of(n, &sheet)
    } else {
        no_edges(1 + rng.below(5))
    };
    let (mut bytes, plan_kind) = if long {
        planned::make_long(rng, &graph)
    } else {
        planned::make(rng, &graph)
    };
    let of_plan = right_sizes && kind == sheets::VALID;
    if !of_plan && rng.one_in(3) {
        bytes = damaged::added(rng, bytes);
    }
    let lent = Buffers { sheet, bytes };
    let known = (of_plan && plan_kind == AND_BACK).then(|| Wanted {
        by: UNDONE,
        answer: accepted(model::set_bits(n, &lent.sheet)),
        after: lent.clone(),
    });
    let kind = if of_plan { plan_kind } else { kind };
    Case { n, call: Call::ReadPlan, lent, kind, known }
}

fn write(rng: &mut Rng) -> Case {
    let (n, sheet, kind) = if rng.one_in(3) {
        cases::of_any_sizes(rng)
    } else {
        valid(vertices(rng), rng)
    };
    let bytes = buffer(rng, n.min(64), sheet.get(..n).unwrap_or(&[]));
    let lent = Buffers { sheet, bytes };
    Case { n, call: Call::WritePlan, lent, kind, known: None }
}

/// Any bytes: exactly enough for the edges of the rows, more, or fewer.
fn buffer(rng: &mut Rng, n: usize, rows: &[u64]) -> Vec<u8> {
    let enough = RECORD * rows.iter().map(|row| row.count_ones() as usize).sum::<usize>();
    let (more, fewer) = (enough + rng.below(100), rng.below(enough + 1));
    let length = rng.weighted(&[
        (8, enough),
        (5, enough.saturating_sub(1)),
        (3, enough + 1),
        (4, more),
        (1, enough.saturating_sub(RECORD)),
        (1, fewer),
        (1, RECORD * n * n),
        (1, 0),
    ]);
    rng.bytes(length)
}

/// A valid sheet written, and what the model wrote read into an empty sheet.
fn there_and_back(rng: &mut Rng, model: Model) -> [Case; 2] {
    let (n, sheet, kind) = valid(vertices(rng), rng);
    let edges = model::set_bits(n, &sheet);
    let length = RECORD * edges as usize;
    let bytes = rng.bytes(length);
    let mut written = Buffers { sheet, bytes };
    let lent = written.clone();
    model(n, &Call::WritePlan, &mut written);
    let there = Case { n, call: Call::WritePlan, lent, kind, known: None };
    let empty = Buffers {
        sheet: sheets::valid_sheet_of(&no_edges(n)),
        ..written.clone()
    };
    let known = Some(Wanted { by: WRITTEN, answer: accepted(edges), after: written });
    let back = Case { n, call: Call::ReadPlan, lent: empty, kind: READ_BACK, known };
    [there, back]
}

/// A valid sheet, now and then an empty one.
fn valid(n: usize, rng: &mut Rng) -> cases::Drawn {
    let graph = if rng.one_in(8) { no_edges(n) } else { graphs::acyclic(rng, n) };
    (n, sheets::valid_sheet_of(&graph), sheets::VALID)
}

fn no_edges(n: usize) -> Graph {
    graphs::of_rule(n, |_, _| false)
}
