//! Random sheets and random calls, good and bad, on which the two programs have to agree.

use crate::{draw::View, graphs::Graph};
use calls::{rng::Rng, Call, Edges};

/// A number of vertices and a sheet, of any length and any words, and an order of the vertices: on a sheet made from a graph its
/// edges run from earlier ones to later ones.
pub struct Case {
    pub n: usize,
    pub sheet: Vec<u64>,
    pub order: Vec<usize>,
}

impl Case {
    pub fn new(rng: &mut Rng) -> Case {
        let n = vertices(rng);
        let m = n.clamp(1, 66);
        let order = rng.shuffled(m.min(64));
        let mut sheet = words(rng, m, &order);
        if rng.percent(4) {
            let length = rng.pick(&[0, m, m * m, sheet.len() - 1, sheet.len() + 1, 4160, 4161]);
            sheet.resize(length, rng.word());
        }
        Case { n, sheet, order }
    }
}

/// Mostly few, often the most, and sometimes too few or too many.
fn vertices(rng: &mut Rng) -> usize {
    match rng.below(100) {
        0..60 => 1 + rng.below(8),
        60..75 => 9 + rng.below(24),
        75..84 => 33 + rng.below(31),
        84..95 => 64,
        95..99 => rng.pick(&[0, 65, 66]),
        _ => rng.pick(&[usize::MAX, 1 << 32, 1 << 63, (1 << 32) + 4]),
    }
}

/// The words of a sheet of m vertices: most often a valid one, else one that is damaged, or words that never were one.
fn words(rng: &mut Rng, m: usize, order: &[usize]) -> Vec<u64> {
    let kind = rng.below(100);
    if m > 64 || kind < 8 {
        return (0..m + m * m).map(|_| rng.word()).collect();
    }
    let mut sheet = acyclic(rng, m, order).sheet();
    match kind {
        8..16 => sheet.iter_mut().skip(m).for_each(|count| *count = rng.word() % 3),
        16..24 => (0..1 + rng.below(3)).for_each(|_| sheet[m + rng.below(m * m)] = rng.word() % 4),
        24..32 => (0..1 + rng.below(3)).for_each(|_| sheet[rng.below(m)] ^= 1 << rng.below(64)),
        32..36 => (0..m).for_each(|row| sheet[row] = rng.word() & rng.word() & (u64::MAX >> (64 - m))),
        36..48 => stray(rng, m, &mut sheet),
        _ => {}
    }
    sheet
}

/// Makes it a sheet of random edges, with cycles, some with bits at m or above, and small counts, on which walks go astray.
fn stray(rng: &mut Rng, m: usize, sheet: &mut [u64]) {
    let mask = rng.pick(&[u64::MAX >> (64 - m), u64::MAX]);
    let counts = rng.pick(&[2, 3, 6, 40]);
    let dense = rng.percent(50);
    sheet[..m]
        .iter_mut()
        .for_each(|row| *row = rng.word() & mask & if dense { u64::MAX } else { rng.word() });
    sheet[m..].iter_mut().for_each(|count| *count = rng.word() % counts);
}

/// A graph whose edges run along the order.
fn acyclic(rng: &mut Rng, m: usize, order: &[usize]) -> Graph {
    let mut graph = Graph { name: "a case", rows: vec![0; m] };
    let sixteenths = rng.pick(&[0, 1, 2, 5, 8, 16]);
    for (place, &from) in order.iter().enumerate() {
        for &to in &order[place + 1..] {
            graph.rows[from] |= u64::from(rng.below(16) < sixteenths) << to;
        }
    }
    graph
}

/// A call, and the bytes that are lent with it.
pub fn call(rng: &mut Rng, case: &Case, sheet: &[u64]) -> (Call, Vec<u8>) {
    let view = View::new(case, sheet);
    match rng.below(20) {
        0..10 => (edit(rng, &view), vec![]),
        10 => (Call::PathCount { from: view.vertex(rng), to: view.vertex(rng) }, vec![]),
        11 => {
            let (edge_from, edge_to) = view.edge_there(rng);
            let (from, to) = (view.vertex(rng), view.vertex(rng));
            (Call::ReachesWithout { from, to, edge_from, edge_to }, vec![])
        }
        12..14 => {
            let (from, to, k) = view.path_number(rng);
            (Call::Unrank { from, to, k }, view.room_for_path(rng))
        }
        14..16 => (Call::Rank, view.path(rng)),
        16 => (Call::ReadPlan, view.plan(rng)),
        17 => (Call::WritePlan, view.room_for_plan(rng)),
        18 => (Call::Recount, vec![]),
        _ => (Call::Validate, vec![]),
    }
}

/// One of the four edits, or seldom the empty sheet.
fn edit(rng: &mut Rng, view: &View) -> Call {
    match rng.below(100) {
        0..2 => Call::Empty,
        2..30 => {
            let (from, to) = view.edge_to_insert(rng);
            Call::Insert(Edges::one(from, to))
        }
        30..50 => {
            let (from, to) = view.edge_there(rng);
            Call::Delete(Edges::one(from, to))
        }
        50..80 => {
            let (v, predecessors, successors) = view.edges_to_insert(rng);
            Call::Insert(Edges::at(v, predecessors, successors))
        }
        _ => {
            let (v, predecessors, successors) = view.edges_to_delete(rng);
            Call::Delete(Edges::at(v, predecessors, successors))
        }
    }
}
