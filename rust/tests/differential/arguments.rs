//! The arguments of a call, drawn: n, vertices, and the edges that an edit names. These are drawn for a sheet so that the edit is
//! accepted, and then something wrong is often put in.

use crate::call::{Call, Edges};
use crate::graphs;
use crate::model::{self, bit, count_index, members};
use crate::rng::Rng;

/// A number of vertices from 1 to 64, small ones more often.
pub fn vertices(rng: &mut Rng) -> usize {
    let most = rng.weighted(&[(10, 8), (5, 24), (5, 64)]);
    if rng.one_in(40) {
        64
    } else {
        1 + rng.below(most)
    }
}

/// An n that is not 1 to 64, at times near a right one in some way.
pub fn wrong_n(rng: &mut Rng, right: usize) -> usize {
    match rng.below(12) {
        0 | 1 => 0,
        2 | 3 => 65,
        4 => 66,
        5 => 67 + rng.below(200),
        6 => rng.pick(&[1 << 7, 1 << 8, 1 << 16, 1 << 32, 1 << 63]),
        7 | 8 => (1 << 32) + right,
        9 => usize::MAX - rng.below(3),
        // The product n × (n + 1) is the same for n and for its complement.
        10 => !right,
        _ => (rng.word() as usize).max(65),
    }
}

/// An n that is not this one, from 1 to 64 or not.
pub fn other_n(rng: &mut Rng, n: usize) -> usize {
    let others = [n - 1, n + 1, 1 + rng.below(64), wrong_n(rng, n)];
    let other = rng.pick(&others);
    if other == n {
        n + 1
    } else {
        other
    }
}

/// A vertex mostly below n.
pub fn vertex(rng: &mut Rng, n: usize) -> usize {
    if rng.one_in(6) {
        no_vertex(rng, n)
    } else {
        rng.below(n.clamp(1, 64))
    }
}

/// Mostly no vertex below n: often n itself, or not far above, or far above.
pub fn no_vertex(rng: &mut Rng, n: usize) -> usize {
    let in_range = rng.below(n.clamp(1, 64));
    let others = [
        n,
        n,
        n,
        n.wrapping_add(1),
        63,
        64,
        65,
        n.wrapping_mul(n),
        (1 << 32) + in_range,
        1 << 63,
        (rng.word() as usize) | (1 << 40),
        usize::MAX - in_range,
        usize::MAX,
    ];
    rng.pick(&others)
}

/// An edit of a sheet, which need not have the words of n vertices.
pub fn edit(rng: &mut Rng, n: usize, sheet: &[u64]) -> Call {
    let inserts = rng.one_in(2);
    let mut edges = match model::check_sizes(n, sheet) {
        Err(_) => wild(rng, n),
        Ok(()) if inserts => to_insert(rng, n, sheet),
        Ok(()) => to_delete(rng, n, sheet),
    };
    while rng.one_in(4) {
        edges = spoilt(rng, n, sheet, edges);
    }
    Call::edit(inserts, edges)
}

/// One edge or two masks, whatever the sheet.
fn wild(rng: &mut Rng, n: usize) -> Edges {
    if rng.one_in(2) {
        let (from, to) = (vertex(rng, n), vertex(rng, n));
        return Edges::One { from, to };
    }
    Edges::At {
        v: vertex(rng, n),
        predecessors: wild_mask(rng),
        successors: wild_mask(rng),
    }
}

fn wild_mask(rng: &mut Rng) -> u64 {
    let (word, thin, place) = (rng.word(), rng.word() & rng.word(), rng.below(64));
    rng.pick(&[0, u64::MAX, 1 << place, u64::MAX >> place, word, thin])
}

/// Edges that are not there and that no count leads back along, if such are found.
fn to_insert(rng: &mut Rng, n: usize, sheet: &[u64]) -> Edges {
    let apart = |from: usize, to: usize| from != to && sheet[count_index(n, to, from)] == 0;
    let fits = |from: usize, to: usize| apart(from, to) && !bit(sheet[from], to);
    if rng.one_in(3) {
        let pairs: Vec<_> = (0..8).map(|_| (rng.below(n), rng.below(n))).collect();
        let (from, to) = *pairs.iter().find(|&&(from, to)| fits(from, to)).unwrap_or(&pairs[0]);
        return Edges::One { from, to };
    }
    let v = rng.below(n);
    let (predecessors, successors) = if rng.one_in(2) {
        let predecessors = some_of(rng, n, |a| fits(a, v));
        let successors = some_of(rng, n, |b| fits(v, b) && members(predecessors).all(|a| apart(a, b)));
        (predecessors, successors)
    } else {
        let successors = some_of(rng, n, |b| fits(v, b));
        let predecessors = some_of(rng, n, |a| fits(a, v) && members(successors).all(|b| apart(a, b)));
        (predecessors, successors)
    };
    Edges::At { v, predecessors, successors }
}

/// Edges that are there, if any are; one from v to itself often in both masks.
fn to_delete(rng: &mut Rng, n: usize, sheet: &[u64]) -> Edges {
    let (from, to) = edge_there(rng, n, sheet);
    if rng.one_in(3) {
        return Edges::One { from, to };
    }
    let v = rng.pick(&[from, to]);
    let both = if bit(sheet[v], v) && rng.one_in(2) { 1 << v } else { 0 };
    Edges::At {
        v,
        predecessors: both | some_of(rng, n, |a| bit(sheet[a], v)),
        successors: both | some_of(rng, n, |b| bit(sheet[v], b)),
    }
}

/// An edge that is there, often one from a vertex to itself; any pair if there is none.
pub fn edge_there(rng: &mut Rng, n: usize, sheet: &[u64]) -> (usize, usize) {
    let mut edges = graphs::edges(&model::graph_of(n, sheet));
    if edges.iter().any(|(from, to)| from == to) && rng.one_in(2) {
        edges.retain(|(from, to)| from == to);
    }
    if edges.is_empty() {
        return (rng.below(n), rng.below(n));
    }
    rng.pick(&edges)
}

/// A mask of some of the vertices that fit: few, many or all.
fn some_of(rng: &mut Rng, n: usize, fits: impl Fn(usize) -> bool) -> u64 {
    let sixteenths = rng.pick(&[0, 1, 2, 4, 8, 16, 16]);
    (0..n)
        .filter(|&j| fits(j) && rng.below(16) < sixteenths)
        .map(|j| 1 << j)
        .sum()
}

/// The edges with something changed, so that most edits of them are refused.
fn spoilt(rng: &mut Rng, n: usize, sheet: &[u64], edges: Edges) -> Edges {
    match edges {
        Edges::One { from, to } => {
            let (from, to) = match rng.below(6) {
                0 => (no_vertex(rng, n), to),
                1 => (from, no_vertex(rng, n)),
                2 => (from, from),
                3 => (to, from),
                _ if model::check_sizes(n, sheet).is_ok() => edge_there(rng, n, sheet),
                _ => (from, to),
            };
            Edges::One { from, to }
        }
        Edges::At { v, predecessors, successors } => spoilt_masks(rng, n, sheet, v, predecessors, successors),
    }
}

fn spoilt_masks(rng: &mut Rng, n: usize, sheet: &[u64], mut v: usize, predecessors: u64, successors: u64) -> Edges {
    let mut masks = [predecessors, successors];
    let one = rng.below(2);
    let bound = n.clamp(1, 64);
    let any = 1 << rng.below(bound);
    match rng.below(9) {
        0 => v = no_vertex(rng, n),
        1 => masks[one] |= 1 << (v % 64),
        2 => masks[one] |= any,
        3 => masks = masks.map(|mask| mask | any),
        4 if bound < 64 => masks[one] |= 1 << bound,
        5 if bound < 64 => masks[one] |= 1 << (bound + rng.below(64 - bound)),
        6 => masks[one] = wild_mask(rng),
        7 if v < n && model::check_sizes(n, sheet).is_ok() => {
            let there = [some_of(rng, n, |a| bit(sheet[a], v)), some_of(rng, n, |b| bit(sheet[v], b))];
            masks[one] |= there[one];
        }
        _ => masks.reverse(),
    }
    let [predecessors, successors] = masks;
    Edges::At { v, predecessors, successors }
}
