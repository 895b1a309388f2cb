//! Lists of edits, played one after the other on one sheet, with refused ones among them. On a valid sheet the book is asked as
//! well; and some lists go back to their start.

use crate::arguments;
use crate::book::Book;
use crate::call::{accepted, Buffers, Call, Edges, Model};
use crate::compare::{Case, Wanted};
use crate::graphs;
use crate::model::{self, Graph};
use crate::rng::Rng;
use crate::sheets;
use lugloquat::sys::Answer;

/// No list has more edits drawn at random, and one that goes back to its start has at most so many before it does.
const MOST_EDITS: usize = 24;
const MOST_AWAY: usize = 8;

/// Who says what an edit has to leave.
pub const BOOK: &str = "the book";
pub const START: &str = "the start of the list";

/// A list so far.
struct List {
    model: Model,
    n: usize,
    kind: &'static str,
    start: Vec<u64>,
    sheet: Vec<u64>,
    /// The edges of a valid sheet.
    book: Option<Book>,
    cases: Vec<Case>,
}

/// A list as cases, each on the sheet as the model leaves it after those before.
pub fn make(rng: &mut Rng, model: Model) -> Vec<Case> {
    let n = arguments::vertices(rng);
    let (sheet, kind) = if rng.one_in(2) {
        (sheets::valid_sheet_of(&graphs::acyclic(rng, n)), sheets::VALID)
    } else {
        sheets::make(rng, n)
    };
    let mut list = List {
        model,
        n,
        kind,
        start: sheet.clone(),
        book: (kind == sheets::VALID).then(|| Book { edges: model::graph_of(n, &sheet) }),
        sheet,
        cases: Vec::new(),
    };
    if !rng.one_in(3) {
        (0..1 + rng.below(MOST_EDITS)).for_each(|_| list.push_any(rng));
    } else if list.book.is_some() {
        (0..1 + rng.below(MOST_AWAY)).for_each(|_| list.push_any(rng));
        list.go_back_by_edges(rng);
    } else {
        list.go_and_go_back(rng);
    }
    list.cases
}

impl List {
    /// The model's answer, and what it leaves.
    fn answered(&self, n: usize, call: &Call) -> (Answer, Buffers) {
        let mut after = Buffers::of_sheet(self.sheet.clone());
        ((self.model)(n, call, &mut after), after)
    }

    /// Puts an edit at the end of the list.
    fn push(&mut self, n: usize, call: Call) -> Answer {
        let (answer, after) = self.answered(n, &call);
        let lent = Buffers::of_sheet(self.sheet.clone());
        let known = self.book.as_mut().map(|book| {
            let answer = book.answer(n, &call);
            let after = if answer.number == 0 {
                book.sheet()
            } else {
                lent.sheet.clone()
            };
            Wanted { by: BOOK, answer, after: Buffers::of_sheet(after) }
        });
        let kind = self.kind;
        self.cases.push(Case { n, call, lent, kind, known });
        self.sheet = after.sheet;
        answer
    }

    /// An edit of the sheet, at times with an n that is not the sheet's.
    fn any(&self, rng: &mut Rng) -> (usize, Call) {
        let call = arguments::edit(rng, self.n, &self.sheet);
        let n = if rng.one_in(16) {
            arguments::other_n(rng, self.n)
        } else {
            self.n
        };
        (n, call)
    }

    fn push_any(&mut self, rng: &mut Rng) {
        let (n, call) = self.any(rng);
        self.push(n, call);
    }

    fn push_if_refused(&mut self, n: usize, call: Call) -> bool {
        let refused = self.answered(n, &call).0.number != 0;
        if refused {
            self.push(n, call);
        }
        refused
    }

    /// Back to the edges of a valid start: what is there too much is deleted, then what is missing is inserted. In between come
    /// edits that are refused.
    fn go_back_by_edges(&mut self, rng: &mut Rng) {
        let goal = model::graph_of(self.n, &self.start);
        let away = model::graph_of(self.n, &self.sheet);
        for _ in 0..edges_without(&away, &goal).len() + edges_without(&goal, &away).len() {
            let reached = model::graph_of(self.n, &self.sheet);
            let (surplus, missing) = (edges_without(&reached, &goal), edges_without(&goal, &reached));
            let call = if !surplus.is_empty() {
                Call::Delete(some_at_once(rng, &surplus))
            } else if !missing.is_empty() {
                Call::Insert(some_at_once(rng, &missing))
            } else {
                break;
            };
            self.push(self.n, call);
            if rng.one_in(4) {
                let (n, call) = self.any(rng);
                self.push_if_refused(n, call);
            }
        }
        self.push_start(rng);
    }

    /// Insertions, and then their deletions from the last to the first. On any sheet a deletion undoes the insertion of the same
    /// edges at v if the count from v to itself is 1, or if there are no predecessors or no successors.
    fn go_and_go_back(&mut self, rng: &mut Rng) {
        let mut inserted = Vec::new();
        for _ in 0..1 + rng.below(MOST_AWAY) {
            let (n, call) = self.any(rng);
            if self.push_if_refused(n, call) {
                continue;
            }
            if let Call::Insert(edges) = call {
                if self.can_be_undone(&edges) {
                    self.push(n, call);
                    inserted.push(edges);
                }
            }
        }
        while let Some(edges) = inserted.pop() {
            self.push(self.n, Call::Delete(edges));
        }
        self.push_start(rng);
    }

    fn can_be_undone(&self, edges: &Edges) -> bool {
        match *edges {
            Edges::One { .. } => true,
            Edges::At { v, predecessors, successors } => {
                predecessors == 0 || successors == 0 || self.sheet[model::count_index(self.n, v, v)] == 1
            }
        }
    }

    /// An edit of no edge, which has to leave the start, word for word.
    fn push_start(&mut self, rng: &mut Rng) {
        let no_edges = Edges::at(rng.below(self.n), 0, 0);
        self.push(self.n, Call::edit(rng.one_in(2), no_edges));
        let start = self.start.clone();
        if let Some(case) = self.cases.last_mut() {
            case.known = Some(Wanted {
                by: START,
                answer: accepted(model::set_bits(self.n, &start)),
                after: Buffers::of_sheet(start),
            });
        }
    }
}

/// The edges of the one graph that the other has not.
fn edges_without(one: &Graph, other: &Graph) -> Vec<(usize, usize)> {
    let mut edges = graphs::edges(one);
    edges.retain(|&(from, to)| !other[from][to]);
    edges
}

/// One of the edges, or all of them at one of its ends.
fn some_at_once(rng: &mut Rng, edges: &[(usize, usize)]) -> Edges {
    let (from, to) = rng.pick(edges);
    if edges.len() < 16 && rng.one_in(2) {
        return Edges::One { from, to };
    }
    let v = rng.pick(&[from, to]);
    let mask = |all: &mut dyn Iterator<Item = usize>| all.map(|j| 1 << j).sum();
    Edges::At {
        v,
        predecessors: mask(&mut edges.iter().filter(|edge| edge.1 == v).map(|edge| edge.0)),
        successors: mask(&mut edges.iter().filter(|edge| edge.0 == v).map(|edge| edge.1)),
    }
}
