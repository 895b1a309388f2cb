//! Plans by exhaustion, on the model and on the library: every byte in every place of a record, and every plan of up to two records
//! on every acyclic graph of up to three vertices.

use crate::agreement;
use crate::book::Book;
use crate::call::{accepted, Call, Edges};
use crate::fixed::{Done, Fixed};
use crate::fixed_plans::{empty, refused_at};
use crate::graphs;
use crate::model::Graph;
use crate::planned::record;

/// Runs them all.
pub fn check(fixed: &mut Fixed) -> Done {
    fixed.every_byte()?;
    fixed.every_small_plan()
}

impl Fixed {
    /// Every byte in every place of the second record, on twenty vertices.
    fn every_byte(&mut self) -> Done {
        for at in 0..8 {
            for byte in 0..=255 {
                let mut plan = *b"L 11 05\nL 05 10\n";
                plan[8 + at] = byte;
                let has_form = match at {
                    0 => byte == b'L' || byte == b'T',
                    1 | 4 => byte == b' ',
                    7 => byte == b'\n',
                    _ => byte.is_ascii_digit(),
                };
                let wanted = match (at, byte) {
                    _ if !has_form => refused_at(2, 14),
                    (0, b'T') => refused_at(2, 7),
                    (2 | 5, b'2'..=b'9') => refused_at(2, 3),
                    (6, b'1') => refused_at(2, 8),
                    _ => accepted(2),
                };
                self.read(20, &mut empty(20), &plan, wanted)?;
            }
        }
        Ok(())
    }

    /// Every plan is as the book has it, record by record.
    fn every_small_plan(&mut self) -> Done {
        for graph in (1..=3).flat_map(agreement::every_graph) {
            if !graphs::has_cycle(&graph) {
                let calls = every_call(graph.len());
                for first in &calls {
                    self.small_plan(&graph, &[*first])?;
                    for second in &calls {
                        self.small_plan(&graph, &[*first, *second])?;
                    }
                }
            }
        }
        Ok(())
    }

    fn small_plan(&mut self, graph: &Graph, calls: &[Call]) -> Done {
        let start = Book { edges: graph.clone() };
        let (mut book, mut wanted) = (start.clone(), accepted(0));
        for (before, call) in calls.iter().enumerate() {
            wanted = book.answer(graph.len(), call);
            if wanted.number != 0 {
                (book, wanted.place) = (start.clone(), before as u64 + 1);
                break;
            }
        }
        let plan: Vec<u8> = calls.iter().flat_map(bytes_of).collect();
        let mut sheet = start.sheet();
        self.read(graph.len(), &mut sheet, &plan, wanted)?;
        if sheet == book.sheet() {
            Ok(())
        } else {
            Err(format!("{} on {graph:?}: got {sheet:x?}", plan.escape_ascii()))
        }
    }
}

/// Every edit of one edge with vertices up to n.
fn every_call(n: usize) -> Vec<Call> {
    let pairs = (0..=n).flat_map(|from| (0..=n).map(move |to| Edges::one(from, to)));
    pairs.flat_map(|edge| [Call::Insert(edge), Call::Delete(edge)]).collect()
}

/// The record of an edit of one edge.
fn bytes_of(call: &Call) -> Vec<u8> {
    match *call {
        Call::Insert(Edges::One { from, to }) => record('L', from, to),
        Call::Delete(Edges::One { from, to }) => record('T', from, to),
        _ => unreachable!("an edit of one edge"),
    }
}
