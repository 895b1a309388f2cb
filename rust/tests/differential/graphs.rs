//! Graphs for the sheets: acyclic ones of many shapes, and random ones that may have cycles.

use crate::model::{self, Graph};
use crate::rng::Rng;

/// A shape makes a graph whose edges all run from a lower vertex to a higher one.
type Shape = fn(&mut Rng, usize) -> Graph;

const SHAPES: &[(usize, Shape)] = &[
    (1, no_edges),
    (3, sparse),
    (5, of_any_density),
    (1, spreading_tree),
    (1, gathering_tree),
    (2, chain),
    (3, complete),
    (2, layers),
    (2, near_neighbours),
];

/// The graph with the edges that the rule picks.
pub fn of_rule(n: usize, mut rule: impl FnMut(usize, usize) -> bool) -> Graph {
    (0..n).map(|i| (0..n).map(|j| rule(i, j)).collect()).collect()
}

/// The graph with the edges, from lower to higher vertices, that the rule picks.
fn ascending(n: usize, mut rule: impl FnMut(usize, usize) -> bool) -> Graph {
    of_rule(n, |i, j| i < j && rule(i, j))
}

fn no_edges(_: &mut Rng, n: usize) -> Graph {
    ascending(n, |_, _| false)
}

fn sparse(rng: &mut Rng, n: usize) -> Graph {
    let edges_a_vertex = 1 + rng.below(4);
    ascending(n, |_, _| rng.below(n) < edges_a_vertex)
}

fn of_any_density(rng: &mut Rng, n: usize) -> Graph {
    let sixteenths = 1 + rng.below(15);
    ascending(n, |_, _| rng.below(16) < sixteenths)
}

/// Every vertex but the first has one edge into it.
fn spreading_tree(rng: &mut Rng, n: usize) -> Graph {
    let parents: Vec<usize> = (0..n).map(|j| rng.below(j.max(1))).collect();
    ascending(n, |i, j| parents[j] == i)
}

/// Every vertex but the last has one edge out of it.
fn gathering_tree(rng: &mut Rng, n: usize) -> Graph {
    let goals: Vec<usize> = (0..n).map(|i| i + 1 + rng.below((n - i - 1).max(1))).collect();
    ascending(n, |i, j| goals[i] == j)
}

pub fn chain(_: &mut Rng, n: usize) -> Graph {
    ascending(n, |i, j| j == i + 1)
}

pub fn complete(_: &mut Rng, n: usize) -> Graph {
    ascending(n, |_, _| true)
}

/// Layers of one width, every vertex of a layer with an edge to every vertex of the next.
fn layers(rng: &mut Rng, n: usize) -> Graph {
    let width = 2 + rng.below(5);
    ascending(n, |i, j| j / width == i / width + 1)
}

/// An edge between any two vertices whose numbers are near.
fn near_neighbours(rng: &mut Rng, n: usize) -> Graph {
    let reach = 2 + rng.below(4);
    ascending(n, |i, j| j - i <= reach)
}

/// The same graph with vertex i now called `names[i]`.
pub fn renamed(graph: &Graph, names: &[usize]) -> Graph {
    let n = graph.len();
    let mut other = vec![vec![false; n]; n];
    for i in 0..n {
        for j in 0..n {
            other[names[i]][names[j]] = graph[i][j];
        }
    }
    other
}

/// Names for the vertices: mostly shuffled, at times ascending or descending.
fn names(rng: &mut Rng, n: usize) -> Vec<usize> {
    match rng.below(8) {
        0 => (0..n).collect(),
        1 => (0..n).rev().collect(),
        _ => rng.shuffled(n),
    }
}

/// The graph with its vertices renamed.
pub fn shuffled(rng: &mut Rng, graph: &Graph) -> Graph {
    renamed(graph, &names(rng, graph.len()))
}

/// An acyclic graph of some shape.
pub fn acyclic(rng: &mut Rng, n: usize) -> Graph {
    let shape = rng.weighted(SHAPES);
    let graph = shape(rng, n);
    shuffled(rng, &graph)
}

/// Any graph, mostly with cycles; edges from a vertex to itself only if asked for.
pub fn random(rng: &mut Rng, n: usize, self_loops: bool) -> Graph {
    let chances = if rng.one_in(2) { 16 } else { n.max(2) };
    let density = 1 + rng.below(chances.min(8));
    of_rule(n, |i, j| (self_loops || i != j) && rng.below(chances) < density)
}

/// The edges of a graph.
pub fn edges(graph: &Graph) -> Vec<(usize, usize)> {
    let n = graph.len();
    (0..n)
        .flat_map(|i| (0..n).map(move |j| (i, j)))
        .filter(|&(i, j)| graph[i][j])
        .collect()
}

/// Closes a path that has at least one edge: walks at random from a random edge on, and adds the edge back. Nothing if the graph
/// has no edge.
pub fn closed(rng: &mut Rng, graph: &Graph) -> Option<Graph> {
    let all = edges(graph);
    if all.is_empty() {
        return None;
    }
    let (first, mut last) = rng.pick(&all);
    for _ in 0..rng.below(graph.len()) {
        let next: Vec<usize> = (0..graph.len()).filter(|&b| graph[last][b]).collect();
        if next.is_empty() {
            break;
        }
        last = rng.pick(&next);
    }
    let mut other = graph.clone();
    other[last][first] = true;
    Some(other)
}

pub fn has_cycle(graph: &Graph) -> bool {
    model::order_of(graph).is_none()
}
