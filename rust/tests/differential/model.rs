//! The model: each call as document 01 words it, slowly and plainly. It answers every n, every length and all words.
//!
//! Up to eight vertices, cycles and counts come from a list of all paths; above, from an order of the vertices in which every
//! edge runs forward.

use crate::call::{accepted, refused, Buffers, Call};
use crate::edits;
use crate::plans;
use crate::questions;
use lugloquat::sys::Answer;

/// `graph[i][j]` is whether an edge runs from i to j.
pub type Graph = Vec<Vec<bool>>;

/// `counts[i][j]` is the count from i to j.
pub type Counts = Vec<Vec<u64>>;

/// The most vertices for which every path is listed.
pub const LISTED: usize = 8;

/// The value of an accepted call, or the number by which it is refused.
pub type Verdict = Result<u64, u64>;

/// The model's answer to any call.
pub fn answer(n: usize, call: &Call, lent: &mut Buffers) -> Answer {
    let verdict = match *call {
        Call::Empty => empty(n, &mut lent.sheet),
        Call::Insert(edges) => edits::insert(n, &mut lent.sheet, &edges),
        Call::Delete(edges) => edits::delete(n, &mut lent.sheet, &edges),
        Call::PathCount { from, to } => path_count(n, &lent.sheet, from, to),
        Call::ReachesWithout { from, to, edge_from, edge_to } => {
            questions::reaches_without(n, &lent.sheet, (from, to), (edge_from, edge_to))
        }
        Call::Unrank { from, to, k } => questions::unrank(n, &lent.sheet, (from, to), k, &mut lent.bytes),
        Call::Rank => questions::rank(n, &lent.sheet, &lent.bytes),
        Call::ReadPlan => return plans::read(n, lent),
        Call::WritePlan => plans::write(n, &lent.sheet, &mut lent.bytes),
        Call::Recount => recount(n, &mut lent.sheet),
        Call::Validate => validate(n, &lent.sheet),
    };
    verdict.map_or_else(refused, accepted)
}

fn empty(n: usize, sheet: &mut [u64]) -> Verdict {
    check_sizes(n, sheet)?;
    write_rows(&vec![vec![false; n]; n], sheet);
    write_counts(&identity(n), sheet);
    Ok(0)
}

fn path_count(n: usize, sheet: &[u64], from: usize, to: usize) -> Verdict {
    check_sizes(n, sheet)?;
    if from >= n || to >= n {
        return Err(3);
    }
    Ok(sheet[count_index(n, from, to)])
}

fn recount(n: usize, sheet: &mut [u64]) -> Verdict {
    check_sizes(n, sheet)?;
    if has_stray_bit(n, sheet) {
        return Err(4);
    }
    match counts_of(&graph_of(n, sheet)) {
        None => Err(8),
        Some(counts) => {
            write_counts(&counts, sheet);
            Ok(set_bits(n, sheet))
        }
    }
}

/// Whether the sheet is valid: 1 or 0.
pub fn validate(n: usize, sheet: &[u64]) -> Verdict {
    check_sizes(n, sheet)?;
    if has_stray_bit(n, sheet) {
        return Ok(0);
    }
    let valid = counts_of(&graph_of(n, sheet)).is_some_and(|counts| counts == stored_counts(n, sheet));
    Ok(u64::from(valid))
}

/// The conditions of every call: 1, n is not 1 to 64; 2, the sheet isn't n + n × n words.
pub fn check_sizes(n: usize, sheet: &[u64]) -> Result<(), u64> {
    if !(1..=64).contains(&n) {
        return Err(1);
    }
    if sheet.len() != n + n * n {
        return Err(2);
    }
    Ok(())
}

/// The word that holds the count from i to j.
pub fn count_index(n: usize, i: usize, j: usize) -> usize {
    n + i * n + j
}

/// Whether bit j of the word is 1.
pub fn bit(word: u64, j: usize) -> bool {
    (word >> j) % 2 == 1
}

/// The vertices in a mask.
pub fn members(mask: u64) -> impl Iterator<Item = usize> {
    (0..64).filter(move |&j| bit(mask, j))
}

/// Whether a row has a bit at n or above.
pub fn has_stray_bit(n: usize, sheet: &[u64]) -> bool {
    (0..n).any(|i| (n..64).any(|j| bit(sheet[i], j)))
}

/// The number of set bits in all rows.
pub fn set_bits(n: usize, sheet: &[u64]) -> u64 {
    (0..n).map(|i| members(sheet[i]).count() as u64).sum()
}

/// The edges that the rows name between vertices below n.
pub fn graph_of(n: usize, sheet: &[u64]) -> Graph {
    (0..n).map(|i| (0..n).map(|j| bit(sheet[i], j)).collect()).collect()
}

/// The counts as they stand in the sheet.
pub fn stored_counts(n: usize, sheet: &[u64]) -> Counts {
    (0..n)
        .map(|i| (0..n).map(|j| sheet[count_index(n, i, j)]).collect())
        .collect()
}

/// The counts without edges: 1 from each vertex to itself, else 0.
pub fn identity(n: usize) -> Counts {
    (0..n).map(|i| (0..n).map(|j| u64::from(i == j)).collect()).collect()
}

pub fn write_rows(graph: &Graph, sheet: &mut [u64]) {
    for (i, edges) in graph.iter().enumerate() {
        sheet[i] = (0..edges.len()).filter(|&j| edges[j]).map(|j| 1 << j).sum();
    }
}

pub fn write_counts(counts: &Counts, sheet: &mut [u64]) {
    let n = counts.len();
    for i in 0..n {
        for j in 0..n {
            sheet[count_index(n, i, j)] = counts[i][j];
        }
    }
}

/// The number of paths between any two vertices, or nothing if there is a cycle.
pub fn counts_of(graph: &Graph) -> Option<Counts> {
    if graph.len() > LISTED {
        counts_by_order(graph)
    } else if cycle_by_listing(graph) {
        None
    } else {
        Some(counts_by_listing(graph))
    }
}

/// Goes through the paths that begin with the given one, itself the first, as long as `visit` says to go on. Says whether it
/// still does at the end.
pub fn each_path_from(graph: &Graph, path: &mut Vec<usize>, visit: &mut dyn FnMut(&[usize]) -> bool) -> bool {
    if !visit(path) {
        return false;
    }
    let last = path[path.len() - 1];
    for next in 0..graph.len() {
        if graph[last][next] && !path.contains(&next) {
            path.push(next);
            let go_on = each_path_from(graph, path, visit);
            path.pop();
            if !go_on {
                return false;
            }
        }
    }
    true
}

/// Goes through all paths, each a list of different vertices, as long as `visit` says to go on.
fn each_path(graph: &Graph, visit: &mut dyn FnMut(&[usize]) -> bool) -> bool {
    (0..graph.len()).all(|first| each_path_from(graph, &mut vec![first], visit))
}

/// Whether some path's last vertex has an edge to its first.
pub fn cycle_by_listing(graph: &Graph) -> bool {
    !each_path(graph, &mut |path| !graph[path[path.len() - 1]][path[0]])
}

/// The number of paths between any two vertices, counted one at a time.
pub fn counts_by_listing(graph: &Graph) -> Counts {
    let mut counts = vec![vec![0; graph.len()]; graph.len()];
    each_path(graph, &mut |path| {
        counts[path[0]][path[path.len() - 1]] += 1;
        true
    });
    counts
}

/// The vertices in an order in which every edge runs forward, or nothing if there is a cycle. A vertex comes once no edge from a
/// vertex still to come leads into it.
pub fn order_of(graph: &Graph) -> Option<Vec<usize>> {
    let n = graph.len();
    let mut incoming: Vec<usize> = (0..n).map(|j| (0..n).filter(|&i| graph[i][j]).count()).collect();
    let mut ready: Vec<usize> = (0..n).filter(|&j| incoming[j] == 0).collect();
    let mut order = Vec::new();
    while let Some(i) = ready.pop() {
        order.push(i);
        for j in (0..n).filter(|&j| graph[i][j]) {
            incoming[j] -= 1;
            if incoming[j] == 0 {
                ready.push(j);
            }
        }
    }
    (order.len() == n).then_some(order)
}

/// The number of paths between any two vertices, summed along the order, or nothing if there is a cycle.
pub fn counts_by_order(graph: &Graph) -> Option<Counts> {
    let n = graph.len();
    let order = order_of(graph)?;
    let successors: Vec<Vec<usize>> = (0..n).map(|a| (0..n).filter(|&b| graph[a][b]).collect()).collect();
    let mut counts = identity(n);
    for from in &mut counts {
        for &a in &order {
            for &b in &successors[a] {
                from[b] = from[b].checked_add(from[a]).expect("a count is at most 2 to the 62");
            }
        }
    }
    Some(counts)
}
