//! The random cases: which call, which list of edits or which plan, on how many vertices, on what sheet, with what arguments.

use crate::arguments::{self, vertex, vertices, wrong_n};
use crate::asked::{self, Asked};
use crate::call::{Buffers, Call};
use crate::compare::Case;
use crate::graphs;
use crate::listing;
use crate::lists;
use crate::model;
use crate::plan_cases;
use crate::questions::Sheet;
use crate::rng::Rng;
use crate::sheets;

/// A generator of single calls.
type Generator = fn(&mut Rng) -> Case;

const GENERATORS: &[(usize, Generator)] = &[
    (2, empty),
    (6, edit),
    (3, path_count),
    (5, recount),
    (6, validate),
    (11, reaches_without),
    (15, unrank),
    (12, rank),
];

/// One round in so many is a list of edits, and one in so many of the others is a plan.
const LISTS: usize = 20;
const PLANS: usize = 6;

/// No sheet of a case is longer, in words.
const LONGEST: usize = 5_000;

/// The random cases of a round: a single call, the edits of a list, or a plan.
pub fn make(rng: &mut Rng) -> Vec<Case> {
    if rng.one_in(LISTS) {
        return lists::make(rng, model::answer);
    }
    if rng.one_in(PLANS) {
        return plan_cases::make(rng, model::answer);
    }
    let generator = rng.weighted(GENERATORS);
    vec![generator(rng)]
}

/// Every word is random: what was there before makes no difference to this call.
fn empty(rng: &mut Rng) -> Case {
    let mut case = on_any_sheet(rng, |_, _, _| Call::Empty);
    case.lent.sheet = rng.words(case.lent.sheet.len());
    Case { kind: "random words", ..case }
}

fn edit(rng: &mut Rng) -> Case {
    on_any_sheet(rng, arguments::edit)
}

fn path_count(rng: &mut Rng) -> Case {
    on_any_sheet(rng, |rng, n, _| Call::PathCount { from: vertex(rng, n), to: vertex(rng, n) })
}

/// On a sheet that is not valid, the count from one end to the other is at times made the product, so that the answer is no.
pub fn reaches_without(rng: &mut Rng) -> Case {
    let mut case = question(rng, asked::reaches_without);
    if case.known.is_none() && rng.one_in(3) {
        make_product(&mut case);
    }
    case
}

pub fn unrank(rng: &mut Rng) -> Case {
    question(rng, asked::unrank)
}

pub fn rank(rng: &mut Rng) -> Case {
    question(rng, asked::rank)
}

/// A question about paths: of a valid sheet, with what its edges say, or of any other.
fn question(rng: &mut Rng, asked: fn(&mut Rng, usize, &[u64]) -> Asked) -> Case {
    let (n, sheet, kind) = if rng.one_in(3) {
        of_valid_sheet(rng)
    } else {
        of_any_sizes(rng)
    };
    let (call, bytes) = asked(rng, n, &sheet);
    let lent = Buffers { sheet, bytes };
    let known = if kind == sheets::VALID && model::check_sizes(n, &lent.sheet).is_ok() {
        listing::known(&model::graph_of(n, &lent.sheet), &call, &lent)
    } else {
        None
    };
    Case { n, call, lent, kind, known }
}

fn make_product(case: &mut Case) {
    let (n, words) = (case.n, &mut case.lent.sheet);
    match case.call {
        Call::ReachesWithout { from, to, edge_from, edge_to }
            if model::check_sizes(n, words).is_ok() && [from, to, edge_from, edge_to].iter().all(|&v| v < n) =>
        {
            let sheet = Sheet { n, words };
            let product = sheet.count(from, edge_from) * sheet.count(edge_to, to);
            words[model::count_index(n, from, to)] = product.0;
            case.kind = "a count made the product";
        }
        _ => (),
    }
}

fn recount(rng: &mut Rng) -> Case {
    on_any_sheet(rng, |_, _, _| Call::Recount)
}

fn validate(rng: &mut Rng) -> Case {
    on_any_sheet(rng, |_, _, _| Call::Validate)
}

/// The call on a sheet of any kind, with n and the length mostly right.
fn on_any_sheet(rng: &mut Rng, call: fn(&mut Rng, usize, &[u64]) -> Call) -> Case {
    let (n, sheet, kind) = of_any_sizes(rng);
    let call = call(rng, n, &sheet);
    let lent = Buffers::of_sheet(sheet);
    let known = None;
    Case { n, call, lent, kind, known }
}

/// An n, a sheet, and its kind.
pub type Drawn = (usize, Vec<u64>, &'static str);

pub fn of_any_sizes(rng: &mut Rng) -> Drawn {
    match rng.below(16) {
        0 => of_wrong_n(rng),
        1 => of_wrong_length(rng),
        _ => of_right_sizes(rng),
    }
}

fn of_valid_sheet(rng: &mut Rng) -> Drawn {
    let n = vertices(rng);
    (n, sheets::valid_sheet_of(&graphs::acyclic(rng, n)), sheets::VALID)
}

fn of_right_sizes(rng: &mut Rng) -> Drawn {
    let n = vertices(rng);
    let (sheet, kind) = sheets::make(rng, n);
    (n, sheet, kind)
}

/// An n that is not 1 to 64, on a sheet of another number of vertices or of as many words as n + n × n comes to modulo 2 to the
/// 64.
fn of_wrong_n(rng: &mut Rng) -> Drawn {
    let (other, mut sheet, kind) = of_right_sizes(rng);
    let n = wrong_n(rng, other);
    let length = n.wrapping_mul(n).wrapping_add(n);
    if length <= LONGEST && rng.one_in(2) {
        resize(rng, &mut sheet, length);
    }
    (n, sheet, kind)
}

/// A right n on a sheet whose length is not n + n × n words.
fn of_wrong_length(rng: &mut Rng) -> Drawn {
    let (n, mut sheet, kind) = of_right_sizes(rng);
    let right = sheet.len();
    let lengths = [
        0,
        1,
        right - 1,
        right + 1,
        right - 2 * n,
        right + 2 * (n + 1),
        n,
        n * n,
        4160,
        4161,
        2 * right,
        rng.below(LONGEST),
    ];
    let length = rng.pick(&lengths);
    resize(rng, &mut sheet, if length == right { right + 1 } else { length });
    (n, sheet, kind)
}

/// Cuts the sheet off, or goes on with random words.
fn resize(rng: &mut Rng, sheet: &mut Vec<u64>, length: usize) {
    sheet.resize_with(length, || rng.word());
}
