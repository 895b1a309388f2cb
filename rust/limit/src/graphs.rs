//! The graphs that are measured, and the sheet of a graph, counted here apart from both programs.

use calls::rng::Rng;

/// The seed of the graphs.
const SEED: u64 = 4_160;

/// The name of the complete graph whose edges run from lower numbers to higher ones. The numbers of all other graphs are shuffled.
pub const IN_ORDER: &str = "complete in order";

/// A directed graph without a cycle, by its rows: bit j of row i is 1 exactly if an edge runs from i to j.
#[derive(Clone)]
pub struct Graph {
    pub name: &'static str,
    pub rows: Vec<u64>,
}

/// The graphs of n vertices: the complete one in order, and those with shuffled numbers.
pub fn all(n: usize) -> Vec<Graph> {
    [vec![complete(IN_ORDER, n)], shuffled(n)].concat()
}

/// The graphs of n vertices with shuffled numbers.
pub fn shuffled(n: usize) -> Vec<Graph> {
    let numbers = Rng::new(SEED).shuffled(n);
    vec![complete("complete", n).renumbered(&numbers), random(n), orchard(n)]
}

/// Every edge from i to j with i below j.
fn complete(name: &'static str, n: usize) -> Graph {
    let mut graph = Graph { name, rows: vec![0; n] };
    for from in 0..n {
        for to in from + 1..n {
            graph.insert(from, to);
        }
    }
    graph
}

/// One in ten of the edges of the complete graph, its numbers shuffled. The seed is the first that gives an edge.
pub fn random(n: usize) -> Graph {
    (SEED..)
        .map(|seed| random_by(n, seed))
        .find(|graph| graph.edge_count() > 0)
        .expect("some seed gives an edge")
}

fn random_by(n: usize, seed: u64) -> Graph {
    let mut rng = Rng::new(seed);
    let numbers = rng.shuffled(n);
    let mut graph = Graph { name: "random", rows: vec![0; n] };
    for (from, to) in complete("complete", n).edges() {
        if rng.below(10) == 0 {
            graph.insert(from, to);
        }
    }
    graph.renumbered(&numbers)
}

/// A sparse orchard: each vertex but 0 is supplied from one of the four before it, and for every 64 vertices there are 27 more
/// supplies, each from any vertex with a lower number. Then the numbers are shuffled.
fn orchard(n: usize) -> Graph {
    let mut rng = Rng::new(SEED);
    let mut graph = Graph { name: "orchard", rows: vec![0; n] };
    for to in 1..n {
        graph.insert(to - 1 - rng.below(to.min(4)), to);
    }
    let mut second = n * 27 / 64;
    while second > 0 {
        let to = 1 + rng.below(n - 1);
        let from = rng.below(to);
        if !graph.has(from, to) {
            graph.insert(from, to);
            second -= 1;
        }
    }
    graph.renumbered(&rng.shuffled(n))
}

impl Graph {
    pub fn n(&self) -> usize {
        self.rows.len()
    }

    pub fn has(&self, from: usize, to: usize) -> bool {
        self.rows[from] >> to & 1 == 1
    }

    fn insert(&mut self, from: usize, to: usize) {
        self.rows[from] |= 1 << to;
    }

    /// The same graph, with these numbers for its vertices 0, 1 and so on.
    fn renumbered(&self, numbers: &[usize]) -> Graph {
        let mut graph = Graph { rows: vec![0; self.n()], ..*self };
        for (from, to) in self.edges() {
            graph.insert(numbers[from], numbers[to]);
        }
        graph
    }

    pub fn edges(&self) -> Vec<(usize, usize)> {
        let n = self.n();
        (0..n * n)
            .map(|pair| (pair / n, pair % n))
            .filter(|&(from, to)| self.has(from, to))
            .collect()
    }

    pub fn edge_count(&self) -> usize {
        self.rows.iter().map(|row| row.count_ones() as usize).sum()
    }

    /// The vertices with an edge to v, as a mask.
    pub fn predecessors(&self, v: usize) -> u64 {
        (0..self.n()).filter(|&from| self.has(from, v)).map(|from| 1 << from).sum()
    }

    /// The sheet of the graph.
    pub fn sheet(&self) -> Vec<u64> {
        let n = self.n();
        let mut counts = vec![0u64; n * n];
        for v in self.last_first() {
            counts[v * n + v] = 1;
            for next in (0..n).filter(|&next| self.has(v, next)) {
                for to in 0..n {
                    counts[v * n + to] = counts[v * n + to].wrapping_add(counts[next * n + to]);
                }
            }
        }
        [self.rows.clone(), counts].concat()
    }

    /// The vertices in an order in which every edge runs from a later one to an earlier one.
    fn last_first(&self) -> Vec<usize> {
        let (mut order, mut done) = (Vec::new(), 0u64);
        while order.len() < self.n() {
            let ready = |&v: &usize| done >> v & 1 == 0 && self.rows[v] & !done == 0;
            let v = (0..self.n()).find(ready).expect("the graph has no cycle");
            done |= 1 << v;
            order.push(v);
        }
        order
    }
}
