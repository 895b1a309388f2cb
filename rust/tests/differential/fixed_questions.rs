//! The questions about paths of the cases that document 01 writes out, some on sheets that are not valid, and every question of
//! every acyclic graph of up to four vertices, on the model and on the library.

use crate::agreement;
use crate::call::{accepted, refused, Buffers, Call};
use crate::compare::Case;
use crate::fixed::{Done, Fixed, KIND};
use crate::graphs;
use crate::listing;
use crate::model::{self, Graph};
use crate::sheets;
use lugloquat::sys::Answer;

/// Runs them all.
pub fn check(fixed: &mut Fixed) -> Done {
    fixed.questions_of_d()?;
    fixed.refused_questions_of_d()?;
    fixed.edge_that_is_not_there()?;
    fixed.products_of_other_counts()?;
    fixed.paths_of_the_complete_graph()?;
    fixed.walks_gone_astray()?;
    fixed.paths_with_repeats()?;
    fixed.walk_with_a_repeat()?;
    fixed.every_small_question()
}

impl Fixed {
    fn ask(&mut self, n: usize, call: Call, sheet: &[u64], path: &[u8], wanted: Answer) -> Result<Buffers, String> {
        let lent = Buffers { sheet: sheet.to_vec(), bytes: path.to_vec() };
        let case = Case { n, call, lent, kind: KIND, known: None };
        self.run(&case, wanted)
    }

    fn reaches(&mut self, n: usize, sheet: &[u64], ends: (usize, usize), edge: (usize, usize), wanted: Answer) -> Done {
        self.ask(n, reaches_without(ends, edge), sheet, &[], wanted).map(|_| ())
    }

    /// The path of that number is this one. It is written over any bytes, more than it needs, and the rest stay.
    fn finds(&mut self, n: usize, sheet: &[u64], ends: (usize, usize), k: u64, path: &[u8]) -> Done {
        let bytes = self.rng.bytes(n + 2);
        let after = self.ask(n, unrank(ends, k), sheet, &bytes, accepted(path.len() as u64))?;
        let mut wanted = path.to_vec();
        wanted.extend_from_slice(&bytes[path.len()..]);
        if after.bytes == wanted {
            Ok(())
        } else {
            Err(format!(
                "path {k} of {ends:?}: wanted the bytes {wanted:?}, got {:?}",
                after.bytes
            ))
        }
    }

    /// The path of that number is refused, whatever the bytes.
    fn refuses(&mut self, n: usize, sheet: &[u64], ends: (usize, usize), k: u64, bytes: usize, number: u64) -> Done {
        let bytes = self.rng.bytes(bytes);
        self.ask(n, unrank(ends, k), sheet, &bytes, refused(number)).map(|_| ())
    }

    fn numbers(&mut self, n: usize, sheet: &[u64], path: &[u8], wanted: Answer) -> Done {
        self.ask(n, Call::Rank, sheet, path, wanted).map(|_| ())
    }

    /// Document 01's D.
    fn questions_of_d(&mut self) -> Done {
        let (n, d) = (5, sheet_of(5, &[(0, 1), (0, 2), (1, 3), (2, 3)]));
        self.finds(n, &d, (0, 3), 0, &[0, 1, 3])?;
        self.finds(n, &d, (0, 3), 1, &[0, 2, 3])?;
        self.finds(n, &d, (4, 4), 0, &[4])?;
        self.numbers(n, &d, &[0, 1, 3], accepted(0))?;
        self.numbers(n, &d, &[0, 2, 3], accepted(1))?;
        self.numbers(n, &d, &[4], accepted(0))?;
        self.reaches(n, &d, (0, 3), (0, 1), accepted(1))?;
        self.reaches(n, &d, (0, 1), (0, 1), accepted(0))?;
        self.reaches(n, &d, (0, 0), (0, 1), accepted(1))?;
        self.reaches(n, &d, (3, 0), (0, 1), accepted(0))
    }

    fn refused_questions_of_d(&mut self) -> Done {
        let (n, d) = (5, sheet_of(5, &[(0, 1), (0, 2), (1, 3), (2, 3)]));
        self.refuses(n, &d, (0, 3), 2, 5, 11)?;
        self.refuses(n, &d, (0, 3), u64::MAX, 5, 11)?;
        self.refuses(n, &d, (0, 4), 0, 5, 11)?;
        self.refuses(n, &d, (4, 4), 1, 5, 11)?;
        self.refuses(n, &d, (0, 3), 2, 4, 10)?;
        self.refuses(n, &d, (4, 4), 0, 0, 10)?;
        self.refuses(n, &d, (0, 5), 2, 4, 3)?;
        for (path, number) in [
            (&[0, 1, 5][..], 3),
            (&[0, 1, 3, 0, 1, 3, 255], 3),
            (&[0, 1, 3, 0, 1, 3], 12),
            (&[0, 3], 12),
            (&[0, 1, 1, 3], 12),
            (&[], 12),
        ] {
            self.numbers(n, &d, path, refused(number))?;
        }
        self.reaches(n, &d, (0, 3), (0, 3), refused(7))?;
        self.reaches(n, &d, (0, 3), (1, 1), refused(7))?;
        self.reaches(n, &d, (5, 3), (0, 3), refused(3))
    }

    /// Document 01's edges 0→1 and 1→2. The product of the counts to 0 and from 2 is the count, but there is no such edge.
    fn edge_that_is_not_there(&mut self) -> Done {
        let sheet = sheet_of(3, &[(0, 1), (1, 2)]);
        self.reaches(3, &sheet, (0, 2), (0, 2), refused(7))?;
        self.reaches(3, &sheet, (0, 2), (1, 2), accepted(0))
    }

    /// Not valid sheets: the edge 0→1, and counts whose product is 2 to the 64, or 6.
    fn products_of_other_counts(&mut self) -> Done {
        for (from_0, from_1, count, value) in [
            (1 << 32, 1 << 32, 0, 0),
            (1 << 32, 1 << 32, 1, 1),
            (2, 3, 5, 1),
            (2, 3, 6, 0),
            (2, 3, 7, 1),
        ] {
            let sheet = [0b10, 0b00, from_0, count, 0, from_1];
            self.reaches(2, &sheet, (0, 1), (0, 1), accepted(value))?;
        }
        Ok(())
    }

    /// With an edge from every lower vertex to every higher one, path number k from 0 to 63 goes through vertex v, 1 to 62,
    /// exactly if bit 62 − v of k is 0.
    fn paths_of_the_complete_graph(&mut self) -> Done {
        let sheet = sheets::valid_sheet_of(&graphs::complete(&mut self.rng, 64));
        let last = (1 << 62) - 1;
        let drawn: Vec<u64> = self.rng.words(300).into_iter().map(|word| word & last).collect();
        for k in [0, 1, last / 2, last / 2 + 1, last - 1, last].into_iter().chain(drawn) {
            let within = (1..63).filter(|&v| k >> (62 - v) & 1 == 0);
            let path: Vec<u8> = [0].into_iter().chain(within).chain([63]).collect();
            self.finds(64, &sheet, (0, 63), k, &path)?;
            self.numbers(64, &sheet, &path, accepted(k))?;
        }
        self.refuses(64, &sheet, (0, 63), 1 << 62, 64, 11)
    }

    /// Not valid sheets, of two vertices: rows, then counts.
    fn walks_gone_astray(&mut self) -> Done {
        let no_edge_fits = [0b00, 0b00, 1, 1, 0, 1];
        let not_arrived = [0b01, 0b00, 1, 1, 0, 1];
        let number_left = [0b10, 0b00, 0, 2, 0, 2];
        self.refuses(2, &no_edge_fits, (0, 1), 0, 2, 9)?;
        self.refuses(2, &not_arrived, (0, 1), 0, 2, 9)?;
        self.refuses(2, &number_left, (0, 1), 1, 2, 9)?;
        self.finds(2, &number_left, (0, 1), 0, &[0, 1])?;
        self.refuses(2, &number_left, (1, 1), 1, 2, 9)?;
        self.refuses(2, &number_left, (0, 0), 0, 2, 11)
    }

    /// Not a valid sheet: edges 0→0, 0→1, 1→0 and 1→2. A vertex may be there twice, and a count passed over is one to the last
    /// vertex, also where the path has been there before.
    fn paths_with_repeats(&mut self) -> Done {
        let sheet = [0b011, 0b101, 0b000, 11, 12, 13, 21, 22, 23, 31, 32, 33];
        self.numbers(3, &sheet, &[0, 0, 1], accepted(12))?;
        self.numbers(3, &sheet, &[1, 0, 1], accepted(12))?;
        self.numbers(3, &sheet, &[0, 1, 2], accepted(13 + 13))?;
        self.numbers(3, &sheet, &[0, 1, 0], accepted(11))?;
        self.finds(3, &sheet, (1, 2), 13, &[1, 2])?;
        self.refuses(3, &sheet, (1, 2), 12, 3, 9)
    }

    /// Not valid sheets: edges 0→3, 1→2, 2→0 and 2→1; the counts to 3 are 1, but 2 from vertex 2. There path number 1 comes to
    /// vertex 2 again, and has five vertices.
    fn walk_with_a_repeat(&mut self) -> Done {
        for n in [4, 5] {
            let graph = graphs::of_rule(n, |i, j| [(0, 3), (1, 2), (2, 0), (2, 1)].contains(&(i, j)));
            let mut counts = model::identity(n);
            (0..4).for_each(|i| counts[i][3] = if i == 2 { 2 } else { 1 });
            let sheet = sheets::sheet_of(&graph, &counts);
            if n == 4 {
                self.refuses(n, &sheet, (2, 3), 1, n, 9)?;
            } else {
                self.finds(n, &sheet, (2, 3), 1, &[2, 1, 2, 0, 3])?;
            }
        }
        Ok(())
    }

    /// Every question of every acyclic graph, by every vertex, number and list of vertices, is as the list of paths has it.
    fn every_small_question(&mut self) -> Done {
        for graph in (1..=4).flat_map(agreement::every_graph) {
            if !graphs::has_cycle(&graph) {
                self.small_questions(&graph)?;
            }
        }
        Ok(())
    }

    fn small_questions(&mut self, graph: &Graph) -> Done {
        let n = graph.len();
        let pairs: Vec<_> = (0..n).flat_map(|i| (0..n).map(move |j| (i, j))).collect();
        for &ends in &pairs {
            for &edge in &pairs {
                self.small_question(graph, reaches_without(ends, edge), vec![])?;
            }
            for k in 0..6 {
                let bytes = self.rng.bytes(n);
                self.small_question(graph, unrank(ends, k), bytes)?;
            }
        }
        for length in 0..=n {
            for path in lists_below(n, length) {
                self.small_question(graph, Call::Rank, path)?;
            }
        }
        Ok(())
    }

    fn small_question(&mut self, graph: &Graph, call: Call, path: Vec<u8>) -> Done {
        let lent = Buffers { sheet: sheets::valid_sheet_of(graph), bytes: path };
        let known = listing::known(graph, &call, &lent).ok_or_else(|| format!("{call:?} of {graph:?}: not known"))?;
        let wanted = known.answer;
        let case = Case { n: graph.len(), call, lent, kind: KIND, known: Some(known) };
        self.run(&case, wanted).map(|_| ())
    }
}

fn reaches_without((from, to): (usize, usize), (edge_from, edge_to): (usize, usize)) -> Call {
    Call::ReachesWithout { from, to, edge_from, edge_to }
}

fn unrank((from, to): (usize, usize), k: u64) -> Call {
    Call::Unrank { from, to, k }
}

/// The valid sheet with these edges.
fn sheet_of(n: usize, edges: &[(usize, usize)]) -> Vec<u64> {
    sheets::valid_sheet_of(&graphs::of_rule(n, |i, j| edges.contains(&(i, j))))
}

/// Every list of so many vertices below n.
fn lists_below(n: usize, length: usize) -> Vec<Vec<u8>> {
    let longer = |list: Vec<u8>| (0..n as u8).map(move |last| [&list[..], &[last]].concat());
    (0..length).fold(vec![vec![]], |lists, _| lists.into_iter().flat_map(longer).collect())
}
