//! The cases that document 01 writes out, and every graph of up to three vertices with every edit of it, on the model and on the
//! library.

use crate::agreement;
use crate::book::Book;
use crate::call::{accepted, refused, Buffers, Call, Edges};
use crate::compare::{compare, Case};
use crate::fixed_plans;
use crate::fixed_questions;
use crate::graphs;
use crate::library::WAYS;
use crate::model::{self, Graph};
use crate::rng::Rng;
use crate::sheets;
use crate::small_plans;
use lugloquat::sys::Answer;

/// What has been run so far.
pub struct Fixed {
    pub rng: Rng,
    pub cases: u64,
    pub calls: u64,
}

pub type Done = Result<(), String>;

/// The kind of sheet of these cases.
pub const KIND: &str = "a fixed case";

/// Runs them all.
pub fn check(seed: u64) -> Result<Fixed, String> {
    let mut fixed = Fixed { rng: Rng::new(seed), cases: 0, calls: 0 };
    fixed.one_vertex()?;
    fixed.wrong_n()?;
    fixed.graph_d()?;
    fixed.edits_of_d()?;
    fixed.complete_graph()?;
    fixed.complete_graph_by_edits()?;
    fixed.self_loop_in_both_masks()?;
    fixed.every_small_graph()?;
    fixed.every_small_edit()?;
    fixed_questions::check(&mut fixed)?;
    fixed_plans::check(&mut fixed)?;
    small_plans::check(&mut fixed)?;
    Ok(fixed)
}

impl Fixed {
    /// Runs the case on the model and on the library. Both must give the answer wanted and leave the same, which is given back.
    pub fn run(&mut self, case: &Case, wanted: Answer) -> Result<Buffers, String> {
        let compared = compare(case, model::answer, WAYS, &mut self.rng).map_err(|mismatch| format!("{case}\n{mismatch}"))?;
        self.cases += 1;
        self.calls += compared.calls;
        if compared.answer == wanted {
            Ok(compared.after)
        } else {
            Err(format!("{case}\n  wanted {wanted:?}, got {:?}", compared.answer))
        }
    }

    /// Runs a call that is lent no bytes. The sheet then has the words that it leaves.
    pub fn step(&mut self, n: usize, call: Call, sheet: &mut Vec<u64>, wanted: Answer) -> Done {
        let lent = Buffers::of_sheet(sheet.clone());
        let case = Case { n, call, lent, kind: KIND, known: None };
        *sheet = self.run(&case, wanted)?.sheet;
        Ok(())
    }

    fn one_vertex(&mut self) -> Done {
        let mut sheet = self.rng.words(2);
        self.step(1, Call::Empty, &mut sheet, accepted(0))?;
        self.step(1, Call::PathCount { from: 0, to: 0 }, &mut sheet, accepted(1))?;
        self.step(1, Call::Validate, &mut sheet, accepted(1))?;
        self.step(1, Call::Insert(Edges::one(0, 0)), &mut sheet, refused(5))?;
        self.step(1, Call::Delete(Edges::one(0, 0)), &mut sheet, refused(7))
    }

    fn wrong_n(&mut self) -> Done {
        let calls = [
            Call::Empty,
            Call::Insert(Edges::one(0, 0)),
            Call::Delete(Edges::one(0, 0)),
            Call::Insert(Edges::at(0, 0, 0)),
            Call::Delete(Edges::at(0, 0, 0)),
            Call::PathCount { from: 0, to: 0 },
            Call::ReachesWithout { from: 0, to: 0, edge_from: 0, edge_to: 0 },
            Call::Unrank { from: 0, to: 0, k: 0 },
            Call::Rank,
            Call::ReadPlan,
            Call::WritePlan,
            Call::Recount,
            Call::Validate,
        ];
        for n in [0, 65] {
            for call in calls {
                let mut sheet = self.rng.words(n + n * n);
                self.step(n, call, &mut sheet, refused(1))?;
            }
        }
        Ok(())
    }

    /// Every count of D, among n vertices.
    pub fn counts_of_d(&mut self, n: usize, sheet: &mut Vec<u64>) -> Done {
        for from in 0..n {
            for to in 0..n {
                let count = match (from, to) {
                    (0, 3) => 2,
                    (0, 1) | (0, 2) | (1, 3) | (2, 3) => 1,
                    _ => u64::from(from == to),
                };
                self.step(n, Call::PathCount { from, to }, sheet, accepted(count))?;
            }
        }
        Ok(())
    }

    /// Document 01's D with the counts of its listing, then with the edge that closes a cycle.
    fn graph_d(&mut self) -> Done {
        let (n, mut sheet) = (5, self.rng.words(30));
        self.step(n, Call::Empty, &mut sheet, accepted(0))?;
        (sheet[0], sheet[1], sheet[2]) = (1 << 1 | 1 << 2, 1 << 3, 1 << 3);
        self.step(n, Call::Validate, &mut sheet, accepted(0))?;
        self.step(n, Call::Recount, &mut sheet, accepted(4))?;
        self.counts_of_d(n, &mut sheet)?;
        self.step(n, Call::Validate, &mut sheet, accepted(1))?;
        sheet[3] = 1;
        self.step(n, Call::Recount, &mut sheet, refused(8))?;
        self.step(n, Call::Validate, &mut sheet, accepted(0))
    }

    /// Document 01's D, edge by edge; cycles by one edge, by masks and by two edges; a way round by vertex 4 and back; and an edge
    /// that is not there although a path is.
    fn edits_of_d(&mut self) -> Done {
        let (n, mut sheet) = (5, self.rng.words(30));
        self.step(n, Call::Empty, &mut sheet, accepted(0))?;
        for (k, &(from, to)) in [(0, 1), (0, 2), (1, 3), (2, 3)].iter().enumerate() {
            self.step(n, Call::Insert(Edges::one(from, to)), &mut sheet, accepted(k as u64 + 1))?;
        }
        let (d, from_0_to_3) = (sheet.clone(), Call::PathCount { from: 0, to: 3 });
        self.step(n, Call::Validate, &mut sheet, accepted(1))?;
        self.step(n, from_0_to_3, &mut sheet, accepted(2))?;
        self.step(n, Call::Insert(Edges::one(3, 0)), &mut sheet, refused(8))?;
        self.step(n, Call::Insert(Edges::at(4, 1 << 3, 1 << 0)), &mut sheet, refused(8))?;
        self.step(n, Call::Insert(Edges::at(4, 1 << 1, 1 << 3)), &mut sheet, accepted(6))?;
        self.step(n, from_0_to_3, &mut sheet, accepted(3))?;
        self.step(n, Call::Delete(Edges::at(4, 1 << 1, 1 << 3)), &mut sheet, accepted(4))?;
        same(&d, &sheet)?;
        self.step(n, Call::Insert(Edges::one(4, 0)), &mut sheet, accepted(5))?;
        self.step(n, Call::Insert(Edges::one(3, 4)), &mut sheet, refused(8))?;
        self.step(n, Call::Delete(Edges::one(0, 3)), &mut sheet, refused(7))
    }

    fn complete_graph(&mut self) -> Done {
        let mut sheet = self.rng.words(4160);
        let graph = graphs::complete(&mut self.rng, 64);
        model::write_rows(&graph, &mut sheet);
        self.step(64, Call::Recount, &mut sheet, accepted(2016))?;
        let ends = Call::PathCount { from: 0, to: 63 };
        self.step(64, ends, &mut sheet, accepted(4_611_686_018_427_387_904))?;
        self.step(64, Call::Validate, &mut sheet, accepted(1))
    }

    /// Each vertex in turn gets an edge from every lower one; then one in the middle loses all its edges and gets them back.
    fn complete_graph_by_edits(&mut self) -> Done {
        let mut sheet = self.rng.words(4160);
        self.step(64, Call::Empty, &mut sheet, accepted(0))?;
        for v in 0..64 {
            let lower = (1 << v) - 1;
            let edges = v * (v + 1) / 2;
            self.step(64, Call::Insert(Edges::at(v, lower, 0)), &mut sheet, accepted(edges as u64))?;
        }
        let (complete, at_31) = (sheet.clone(), Edges::at(31, (1 << 31) - 1, u64::MAX << 32));
        let ends = Call::PathCount { from: 0, to: 63 };
        self.step(64, ends, &mut sheet, accepted(1 << 62))?;
        self.step(64, Call::Delete(at_31), &mut sheet, accepted(2016 - 63))?;
        self.step(64, ends, &mut sheet, accepted(1 << 61))?;
        self.step(64, Call::Insert(at_31), &mut sheet, accepted(2016))?;
        same(&complete, &sheet)?;
        self.step(64, Call::Recount, &mut sheet, accepted(2016))?;
        same(&complete, &sheet)
    }

    /// Not a valid sheet: an edge from vertex 0 to itself, named by both masks. One bit is cleared, and 5 × 5 + 5 × 5 - 5 × 5 is taken
    /// off the count of 5.
    fn self_loop_in_both_masks(&mut self) -> Done {
        let mut sheet = vec![1, 5];
        self.step(1, Call::Delete(Edges::at(0, 1, 1)), &mut sheet, accepted(0))?;
        same(&[0, 18_446_744_073_709_551_596], &sheet)
    }

    fn every_small_graph(&mut self) -> Done {
        (1..=3)
            .flat_map(agreement::every_graph)
            .try_for_each(|graph| self.small_graph(&graph))
    }

    /// An acyclic graph is recounted from random counts and is then valid; one with a cycle is refused and never valid.
    fn small_graph(&mut self, graph: &Graph) -> Done {
        let n = graph.len();
        let mut sheet = self.rng.words(n + n * n);
        model::write_rows(graph, &mut sheet);
        if graphs::has_cycle(graph) {
            self.step(n, Call::Recount, &mut sheet, refused(8))?;
            let mut listed = sheets::sheet_of(graph, &model::counts_by_listing(graph));
            return self.step(n, Call::Validate, &mut listed, accepted(0));
        }
        let edges = graphs::edges(graph).len() as u64;
        self.step(n, Call::Recount, &mut sheet, accepted(edges))?;
        self.step(n, Call::Validate, &mut sheet, accepted(1))
    }

    /// Every edit of every acyclic graph, by every vertex up to n and every mask, is as the book has it.
    fn every_small_edit(&mut self) -> Done {
        for graph in (1..=3).flat_map(agreement::every_graph) {
            if !graphs::has_cycle(&graph) {
                for edges in every_edges(graph.len()) {
                    self.small_edit(&graph, Call::Insert(edges))?;
                    self.small_edit(&graph, Call::Delete(edges))?;
                }
            }
        }
        Ok(())
    }

    fn small_edit(&mut self, graph: &Graph, call: Call) -> Done {
        let mut book = Book { edges: graph.clone() };
        let mut sheet = book.sheet();
        let wanted = book.answer(graph.len(), &call);
        self.step(graph.len(), call, &mut sheet, wanted)?;
        same(&book.sheet(), &sheet).map_err(|found| format!("{call:?} of {graph:?}: {found}"))
    }
}

/// What an edit of a graph of n vertices can name, with vertices up to n and mask bits up to n.
fn every_edges(n: usize) -> Vec<Edges> {
    let mut all = Vec::new();
    for v in 0..=n {
        all.extend((0..=n).map(|to| Edges::one(v, to)));
        for predecessors in 0..2 << n {
            all.extend((0..2 << n).map(|successors| Edges::at(v, predecessors, successors)));
        }
    }
    all
}

fn same(wanted: &[u64], sheet: &[u64]) -> Done {
    if wanted == sheet {
        Ok(())
    } else {
        Err(format!("wanted the words {wanted:x?}, got {sheet:x?}"))
    }
}
