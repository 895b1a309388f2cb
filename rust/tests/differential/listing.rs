//! The questions about paths once more, on a valid sheet, from its edges alone: the paths are listed in ascending order by a
//! search in depth. No count is read.

use crate::call::{accepted, refused, Buffers, Call};
use crate::compare::Wanted;
use crate::model::{self, Graph, Verdict};
use crate::questions;

/// Who says what a question has to answer and to leave.
pub const LIST: &str = "the list of paths";

/// No list has more paths.
const MOST: usize = 300;

/// The first paths from one vertex to another, and whether they are all.
struct Listed {
    paths: Vec<Vec<usize>>,
    all: bool,
}

/// What is known of a question with the right sizes and vertices below n, on the valid sheet of the graph. Nothing if the list is
/// too long to say.
pub fn known(graph: &Graph, call: &Call, lent: &Buffers) -> Option<Wanted> {
    let n = graph.len();
    let mut after = lent.clone();
    let verdict = match *call {
        Call::ReachesWithout { from, to, edge_from, edge_to } if [from, to, edge_from, edge_to].iter().all(|&v| v < n) => {
            reaches_without(graph, (from, to), (edge_from, edge_to))
        }
        Call::Unrank { from, to, k } if from < n && to < n => unrank(graph, (from, to), k, &mut after.bytes)?,
        Call::Rank if lent.bytes.iter().all(|&v| usize::from(v) < n) => rank(graph, &lent.bytes)?,
        _ => return None,
    };
    let answer = verdict.map_or_else(refused, accepted);
    Some(Wanted { by: LIST, answer, after })
}

/// Whether some path listed goes without the edge. If those listed are not all and none does, the goal is looked for once the
/// edge is struck out.
fn reaches_without(graph: &Graph, (from, to): (usize, usize), edge: (usize, usize)) -> Verdict {
    if !graph[edge.0][edge.1] {
        return Err(7);
    }
    let uses = |path: &Vec<usize>| path.windows(2).any(|pair| (pair[0], pair[1]) == edge);
    let listed = Listed::of(graph, from, to);
    let mut found = !listed.paths.iter().all(uses);
    if !found && !listed.all {
        let mut without = graph.clone();
        without[edge.0][edge.1] = false;
        found = leading_to(&without, to)[from];
    }
    Ok(u64::from(found))
}

fn unrank(graph: &Graph, (from, to): (usize, usize), k: u64, path: &mut [u8]) -> Option<Verdict> {
    if path.len() < graph.len() {
        return Some(Err(10));
    }
    let listed = Listed::of(graph, from, to);
    match usize::try_from(k).ok().and_then(|k| listed.paths.get(k)) {
        Some(vertices) => {
            questions::write_path(vertices, path);
            Some(Ok(vertices.len() as u64))
        }
        None => listed.all.then_some(Err(11)),
    }
}

fn rank(graph: &Graph, path: &[u8]) -> Option<Verdict> {
    let path: Vec<usize> = path.iter().map(|&vertex| usize::from(vertex)).collect();
    let (Some(&from), Some(&to)) = (path.first(), path.last()) else {
        return Some(Err(12));
    };
    let listed = Listed::of(graph, from, to);
    match listed.paths.iter().position(|other| *other == path) {
        Some(number) => Some(Ok(number as u64)),
        None => listed.all.then_some(Err(12)),
    }
}

impl Listed {
    fn of(graph: &Graph, from: usize, to: usize) -> Listed {
        let leading = leading_to(graph, to);
        let mut paths = Vec::new();
        let mut all = true;
        if leading[from] {
            all = model::each_path_from(&only_to(graph, &leading), &mut vec![from], &mut |path| {
                if path[path.len() - 1] == to {
                    paths.push(path.to_vec());
                }
                paths.len() < MOST
            });
        }
        Listed { paths, all }
    }
}

/// Of each vertex, whether edges lead from it to the goal, or it is the goal.
fn leading_to(graph: &Graph, goal: usize) -> Vec<bool> {
    let mut leading = vec![false; graph.len()];
    let mut open = vec![goal];
    while let Some(at) = open.pop() {
        if !leading[at] {
            leading[at] = true;
            open.extend((0..graph.len()).filter(|&i| graph[i][at]));
        }
    }
    leading
}

/// The graph with only the edges that run to such vertices.
fn only_to(graph: &Graph, such: &[bool]) -> Graph {
    let row = |edges: &Vec<bool>| edges.iter().zip(such).map(|(&edge, &such)| edge && such).collect();
    graph.iter().map(row).collect()
}
