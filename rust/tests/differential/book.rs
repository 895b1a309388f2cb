//! Document 01's book of pipes: the edits on a valid sheet once more, from the edges alone. It never sees a count.

use crate::call::{accepted, refused, Call, Edges};
use crate::edits::Edit;
use crate::graphs;
use crate::model::{Graph, Verdict};
use crate::sheets;
use lugloquat::sys::Answer;

#[derive(Clone)]
pub struct Book {
    pub edges: Graph,
}

impl Book {
    /// The sheet worked out afresh: the rows are the book's edges, and each count is the number of paths over them.
    pub fn sheet(&self) -> Vec<u64> {
        sheets::valid_sheet_of(&self.edges)
    }

    /// What the book answers to an edit, which it enters if it accepts it.
    pub fn answer(&mut self, n: usize, call: &Call) -> Answer {
        let verdict = match call {
            Call::Insert(edges) => self.insert(n, edges),
            Call::Delete(edges) => self.delete(n, edges),
            _ => unreachable!("the book is fed edits"),
        };
        verdict.map_or_else(refused, accepted)
    }

    fn insert(&mut self, n: usize, edges: &Edges) -> Verdict {
        let named = self.named(n, edges)?;
        if named.iter().any(|&(from, to)| from == to) {
            return Err(5);
        }
        if named.iter().any(|&(from, to)| self.edges[from][to]) {
            return Err(6);
        }
        let mut together = self.edges.clone();
        named.iter().for_each(|&(from, to)| together[from][to] = true);
        if graphs::has_cycle(&together) {
            return Err(8);
        }
        self.edges = together;
        Ok(self.pairs())
    }

    fn delete(&mut self, n: usize, edges: &Edges) -> Verdict {
        let named = self.named(n, edges)?;
        if named.iter().any(|&(from, to)| !self.edges[from][to]) {
            return Err(7);
        }
        named.iter().for_each(|&(from, to)| self.edges[from][to] = false);
        Ok(self.pairs())
    }

    /// The edges named. An n other than the book's is refused by 1 if it is not 1 to 64, else by 2.
    fn named(&self, n: usize, edges: &Edges) -> Result<Vec<(usize, usize)>, u64> {
        if n != self.edges.len() {
            return Err(if (1..=64).contains(&n) { 2 } else { 1 });
        }
        Ok(Edit::of(n, edges)?.edges())
    }

    /// The number of pairs with an edge.
    fn pairs(&self) -> u64 {
        graphs::edges(&self.edges).len() as u64
    }
}
