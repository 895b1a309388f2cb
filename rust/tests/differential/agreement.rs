//! The model against itself: a list of all paths and an order of the vertices give the same cycles and the same counts.

use crate::graphs;
use crate::model::{self, Graph};
use crate::rng::Rng;

/// Every graph of so many vertices is tried; larger ones are drawn.
const ALL_UP_TO: usize = 4;
const DRAWN: usize = 20_000;

/// How many graphs agreed, and how many of them are acyclic; or one that does not agree.
pub fn check(seed: u64) -> Result<(usize, usize), String> {
    let (mut graphs, mut acyclic) = (0, 0);
    let mut tell = |graph: &Graph| -> Result<(), String> {
        graphs += 1;
        acyclic += usize::from(agrees(graph)?);
        Ok(())
    };
    for n in 1..=ALL_UP_TO {
        every_graph(n).try_for_each(|graph| tell(&graph))?;
    }
    let mut rng = Rng::new(seed);
    for _ in 0..DRAWN {
        tell(&drawn(&mut rng))?;
    }
    Ok((graphs, acyclic))
}

/// Every graph of n vertices, with self loops too.
pub fn every_graph(n: usize) -> impl Iterator<Item = Graph> {
    (0..1u64 << (n * n)).map(move |edges| {
        let edge = |i: usize, j: usize| (edges >> (i * n + j)) % 2 == 1;
        (0..n).map(|i| (0..n).map(|j| edge(i, j)).collect()).collect()
    })
}

fn drawn(rng: &mut Rng) -> Graph {
    let n = ALL_UP_TO + 1 + rng.below(model::LISTED - ALL_UP_TO);
    if rng.one_in(4) {
        let self_loops = rng.one_in(4);
        graphs::random(rng, n, self_loops)
    } else {
        graphs::acyclic(rng, n)
    }
}

/// Whether the graph is acyclic, if both ways say the same of it.
fn agrees(graph: &Graph) -> Result<bool, String> {
    let cycle = model::cycle_by_listing(graph);
    let by_order = model::counts_by_order(graph);
    if cycle != by_order.is_none() {
        return Err(format!(
            "the model's two ways disagree on whether this graph has a cycle: {graph:?}"
        ));
    }
    match by_order {
        Some(counts) if counts != model::counts_by_listing(graph) => Err(format!(
            "the model's two ways disagree on the counts of this graph: {graph:?}"
        )),
        _ => Ok(!cycle),
    }
}
