//! What is done with a graph when its calls are timed: every argument, drawn beforehand.

use crate::graphs::Graph;
use calls::{rng::Rng, Call, Edges};
use std::ops::Range;

const SEED: u64 = 1;
const EDGES: usize = 48;
const VERTICES: usize = 12;
const WITHOUT: usize = 2048;
const NUMBERS: usize = 512;
/// The bytes that a path is given in `Work::paths`.
pub const PATH: usize = 64;

/// The vertex, its predecessors and its successors.
pub type At = (usize, u64, u64);

/// A graph, its sheet, and the arguments.
pub struct Work {
    pub graph: Graph,
    pub sheet: Vec<u64>,
    /// The edges that are deleted, one after the other, and inserted again from the last on.
    pub edges: Vec<(usize, usize)>,
    /// The vertices whose edges are deleted, as they stand when their turn comes, and inserted again from the last on.
    pub vertices: Vec<At>,
    pub pairs: Vec<(usize, usize)>,
    /// From, to, and the edge to go without.
    pub without: Vec<[usize; 4]>,
    /// From, to, and the number of a path between them.
    pub numbers: Vec<(usize, usize, u64)>,
    /// The paths with these numbers, each at a multiple of `PATH` bytes, and where each stands.
    pub paths: Vec<u8>,
    pub places: Vec<Range<usize>>,
    /// The edges of the graph, as records.
    pub plan: Vec<u8>,
}

impl Work {
    pub fn new(graph: Graph) -> Work {
        let mut rng = Rng::new(SEED);
        let (n, sheet, all) = (graph.n(), graph.sheet(), graph.edges());
        let pairs: Vec<(usize, usize)> = (0..n * n).map(|pair| (pair / n, pair % n)).collect();
        let mut edges = all.clone();
        rng.shuffle(&mut edges);
        edges.truncate(EDGES);
        let vertices = edges_at(&graph, &mut rng, VERTICES);
        let without = (0..WITHOUT).map(|_| without(&mut rng, n, &all)).collect();
        let numbers = numbers(&mut rng, n, &sheet);
        let (paths, places) = paths(n, &sheet, &numbers);
        let plan = all
            .iter()
            .flat_map(|(from, to)| format!("L {from:02} {to:02}\n").into_bytes())
            .collect();
        Work {
            graph,
            sheet,
            edges,
            vertices,
            pairs,
            without,
            numbers,
            paths,
            places,
            plan,
        }
    }

    pub fn n(&self) -> usize {
        self.graph.n()
    }

    /// The calls that are timed, with the bytes lent to each, in an order that ends with the sheet as it was.
    pub fn calls(&self) -> Vec<(Call, Vec<u8>)> {
        let bare = |call: Call| (call, Vec::new());
        let mut calls: Vec<(Call, Vec<u8>)> = edge_edits(&self.edges).into_iter().map(bare).collect();
        calls.extend(vertex_edits(&self.vertices).into_iter().map(bare));
        calls.extend([Call::Validate, Call::Recount].map(bare));
        calls.extend(self.pairs.iter().map(|&(from, to)| bare(Call::PathCount { from, to })));
        let without = |&[from, to, edge_from, edge_to]: &[usize; 4]| Call::ReachesWithout { from, to, edge_from, edge_to };
        calls.extend(self.without.iter().map(without).map(bare));
        calls.extend(
            self.numbers
                .iter()
                .map(|&(from, to, k)| (Call::Unrank { from, to, k }, vec![0; self.n()])),
        );
        calls.extend(
            self.places
                .iter()
                .map(|place| (Call::Rank, self.paths[place.clone()].to_vec())),
        );
        calls.push((Call::WritePlan, vec![0; self.plan.len()]));
        calls.push(bare(Call::Empty));
        calls.push((Call::ReadPlan, self.plan.clone()));
        calls
    }
}

/// The deletions of the edges, then the insertions that put them back.
pub fn edge_edits(edges: &[(usize, usize)]) -> Vec<Call> {
    there_and_back(edges.iter().map(|&(from, to)| Edges::one(from, to)))
}

/// The deletions of all edges at the vertices, then the insertions that put them back.
pub fn vertex_edits(vertices: &[At]) -> Vec<Call> {
    there_and_back(
        vertices
            .iter()
            .map(|&(v, predecessors, successors)| Edges::at(v, predecessors, successors)),
    )
}

/// The deletions in order, then the insertions from the last on.
fn there_and_back(edges: impl DoubleEndedIterator<Item = Edges> + Clone) -> Vec<Call> {
    edges.clone().map(Call::Delete).chain(edges.rev().map(Call::Insert)).collect()
}

/// Some vertices with the edges that each has when those of the ones before it are gone; a vertex without any is passed over.
pub fn edges_at(graph: &Graph, rng: &mut Rng, most: usize) -> Vec<At> {
    let (mut left, mut vertices) = (graph.clone(), Vec::new());
    for v in rng.shuffled(graph.n()) {
        let (predecessors, successors) = (left.predecessors(v), left.rows[v]);
        if vertices.len() == most || predecessors | successors == 0 {
            continue;
        }
        left.rows.iter_mut().for_each(|row| *row &= !(1 << v));
        left.rows[v] = 0;
        vertices.push((v, predecessors, successors));
    }
    vertices
}

fn without(rng: &mut Rng, n: usize, edges: &[(usize, usize)]) -> [usize; 4] {
    let (edge_from, edge_to) = rng.pick(edges);
    [rng.below(n), rng.below(n), edge_from, edge_to]
}

/// Random pairs with a path between them, and the number of one.
fn numbers(rng: &mut Rng, n: usize, sheet: &[u64]) -> Vec<(usize, usize, u64)> {
    let count = |from: usize, to: usize| sheet[n + from * n + to];
    let pairs = (0..n * n).map(|pair| (pair / n, pair % n));
    let joined: Vec<(usize, usize)> = pairs.filter(|&(from, to)| from != to && count(from, to) > 0).collect();
    let mut number = || {
        let (from, to) = rng.pick(&joined);
        (from, to, rng.word() % count(from, to))
    };
    (0..NUMBERS).map(|_| number()).collect()
}

fn paths(n: usize, sheet: &[u64], numbers: &[(usize, usize, u64)]) -> (Vec<u8>, Vec<Range<usize>>) {
    let mut bytes = vec![0; numbers.len() * PATH];
    let mut place = |(start, &(from, to, k)): (usize, &(usize, usize, u64))| {
        let length = lugloquat::unrank(n, sheet, from, to, k, &mut bytes[start..][..PATH]);
        let length = length.unwrap_or_else(|refusal| panic!("path {k} from {from} to {to}: {refusal}"));
        start..start + length as usize
    };
    let places = (0..).step_by(PATH).zip(numbers).map(&mut place).collect();
    (bytes, places)
}
