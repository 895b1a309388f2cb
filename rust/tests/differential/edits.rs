//! The model of the edits, as document 01 words them: the conditions, each over all edges named, and the formulas of the counts,
//! modulo 2 to the 64.

use crate::call::Edges;
use crate::model::{self, bit, members, Counts, Verdict};
use crate::questions::Sheet;
use std::num::Wrapping;

/// An edit at vertex v: the edges from each of the predecessors to v, and from v to each of the successors. One edge is the edit at
/// the vertex that it runs from, with no predecessor and one successor.
pub struct Edit {
    pub v: usize,
    pub predecessors: Vec<usize>,
    pub successors: Vec<usize>,
}

/// What makes the count from i to j after the edit, all from before it: count(i, j), count(i, v), count(v, j), F(i) and T(j).
#[derive(Clone, Copy)]
pub struct Terms {
    pub count: Wrapping<u64>,
    pub to_v: Wrapping<u64>,
    pub from_v: Wrapping<u64>,
    pub f: Wrapping<u64>,
    pub t: Wrapping<u64>,
}

/// The count after the edit.
pub type Formula = fn(&Terms) -> Wrapping<u64>;

pub fn after_insertion(x: &Terms) -> Wrapping<u64> {
    x.count + (x.to_v * x.t + x.f * x.from_v + x.f * x.t)
}

pub fn after_deletion(x: &Terms) -> Wrapping<u64> {
    x.count - (x.to_v * x.t + x.f * x.from_v - x.f * x.t)
}

/// The insertion, on any words.
pub fn insert(n: usize, words: &mut [u64], edges: &Edges) -> Verdict {
    model::check_sizes(n, words)?;
    let edit = Edit::of(n, edges)?;
    let sheet = Sheet { n, words };
    if edit.has_self_loop() {
        Err(5)
    } else if edit.has_edge_there(&sheet) {
        Err(6)
    } else if edit.closes_cycle(&sheet) {
        Err(8)
    } else {
        Ok(edit.enter(n, words))
    }
}

/// The deletion, on any words.
pub fn delete(n: usize, words: &mut [u64], edges: &Edges) -> Verdict {
    model::check_sizes(n, words)?;
    let edit = Edit::of(n, edges)?;
    if edit.has_edge_missing(&Sheet { n, words }) {
        Err(7)
    } else {
        Ok(edit.strike_out(n, words))
    }
}

impl Edit {
    /// What is named, or the number by which that is refused: 3, a vertex is n or more; 4, a mask has a bit at n or above.
    pub fn of(n: usize, edges: &Edges) -> Result<Edit, u64> {
        match *edges {
            Edges::One { from, to } if from >= n || to >= n => Err(3),
            Edges::One { from, to } => Ok(Edit { v: from, predecessors: vec![], successors: vec![to] }),
            Edges::At { v, .. } if v >= n => Err(3),
            Edges::At { predecessors, successors, .. } if (n..64).any(|j| bit(predecessors, j) || bit(successors, j)) => Err(4),
            Edges::At { v, predecessors, successors } => Ok(Edit {
                v,
                predecessors: members(predecessors).collect(),
                successors: members(successors).collect(),
            }),
        }
    }

    /// The edges named. One from v to itself that both masks name is there twice.
    pub fn edges(&self) -> Vec<(usize, usize)> {
        let into_v = self.predecessors.iter().map(|&a| (a, self.v));
        let out_of_v = self.successors.iter().map(|&b| (self.v, b));
        into_v.chain(out_of_v).collect()
    }

    /// The sum of count(i, a) over the predecessors a.
    fn f(&self, counts: &Counts, i: usize) -> Wrapping<u64> {
        self.predecessors.iter().map(|&a| Wrapping(counts[i][a])).sum()
    }

    /// The sum of count(b, j) over the successors b.
    fn t(&self, counts: &Counts, j: usize) -> Wrapping<u64> {
        self.successors.iter().map(|&b| Wrapping(counts[b][j])).sum()
    }

    pub fn terms(&self, counts: &Counts, i: usize, j: usize) -> Terms {
        Terms {
            count: Wrapping(counts[i][j]),
            to_v: Wrapping(counts[i][self.v]),
            from_v: Wrapping(counts[self.v][j]),
            f: self.f(counts, i),
            t: self.t(counts, j),
        }
    }

    fn change_counts(&self, n: usize, words: &mut [u64], formula: Formula) {
        let before = model::stored_counts(n, words);
        let count = |i: usize, j: usize| formula(&self.terms(&before, i, j)).0;
        let after = (0..n).map(|i| (0..n).map(|j| count(i, j)).collect()).collect();
        model::write_counts(&after, words);
    }

    /// Enters the edges, whether or not a condition holds, and gives the number of set bits in all rows.
    pub fn enter(&self, n: usize, words: &mut [u64]) -> u64 {
        self.change_counts(n, words, after_insertion);
        for (from, to) in self.edges() {
            words[from] |= 1 << to;
        }
        model::set_bits(n, words)
    }

    /// Strikes the edges out in the same way.
    fn strike_out(&self, n: usize, words: &mut [u64]) -> u64 {
        self.change_counts(n, words, after_deletion);
        for (from, to) in self.edges() {
            words[from] &= !(1 << to);
        }
        model::set_bits(n, words)
    }

    fn has_self_loop(&self) -> bool {
        self.edges().iter().any(|&(from, to)| from == to)
    }

    pub fn has_edge_there(&self, sheet: &Sheet) -> bool {
        self.edges().iter().any(|&(from, to)| sheet.edge(from, to))
    }

    fn has_edge_missing(&self, sheet: &Sheet) -> bool {
        self.edges().iter().any(|&(from, to)| !sheet.edge(from, to))
    }

    /// Whether count(v, a) is not 0 for some predecessor a, or count(b, v) for some successor b, or count(b, a) for some pair of them.
    pub fn closes_cycle(&self, sheet: &Sheet) -> bool {
        let leads = |i: usize, j: usize| sheet.count(i, j).0 != 0;
        let into_v = self.predecessors.iter().any(|&a| leads(self.v, a));
        let out_of_v = self.successors.iter().any(|&b| leads(b, self.v));
        let through_v = |b: usize| self.predecessors.iter().any(|&a| leads(b, a));
        into_v || out_of_v || self.successors.iter().any(|&b| through_v(b))
    }
}
