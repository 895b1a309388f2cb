//! A fixed script of edits, run by one program, for counting its instructions: on the random graph of 64 vertices edges and the
//! edges at vertices are deleted and inserted again, and now and then an edit is refused.

use crate::{
    graphs,
    work::{edge_edits, edges_at, vertex_edits},
};
use calls::{rng::Rng, Call, Edges, Program, Slices};
use lugloquat::sys::Answer;
use std::hint::black_box;

const N: usize = 64;
const SEED: u64 = 2;
const EDGES: usize = 60;
const VERTICES: usize = 30;
/// After every so many edits stands one that is refused.
const BETWEEN: usize = 9;
/// The calls of the script.
pub const CALLS: [&str; 4] = ["insert_edge", "delete_edge", "insert_edges_at", "delete_edges_at"];

/// Edits, to be applied to a sheet in order, and their answers.
struct Run<'a> {
    program: &'a Program,
    sheet: &'a mut [u64],
    edits: &'a [Call],
    answers: &'a mut [Answer],
}

/// Runs the script and prints how many edits it has and a checksum of the answers and the words. Counted are the edits by the
/// call of that name, or all.
pub fn print(program: &Program, counted: Option<&str>) {
    let graph = graphs::random(N);
    let (edits, mut sheet) = (script(&graph), graph.sheet());
    let mut answers = vec![Answer { number: 0, place: 0, value: 0 }; edits.len()];
    let is_counted = |edit: &Call| counted.unwrap_or(edit.name()) == edit.name();
    let mut left = &mut answers[..];
    for edits in edits.chunk_by(|a, b| is_counted(a) == is_counted(b)) {
        let (answers, rest) = left.split_at_mut(edits.len());
        left = rest;
        let mut run = Run {
            program: black_box(program),
            sheet: &mut sheet,
            edits,
            answers,
        };
        match is_counted(&edits[0]) {
            true => counted_edits(&mut run),
            false => apply(&mut run),
        }
    }
    let refused = answers.iter().filter(|answer| answer.number != 0).count();
    let number = edits.iter().filter(|edit| is_counted(edit)).count();
    println!(
        "{}: {} edits, {refused} refused, {number} counted, checksum {:016x}",
        program.name,
        edits.len(),
        sum(&answers, &sheet)
    );
}

/// The part whose instructions are counted: `valgrind --tool=callgrind --toggle-collect=counted_edits`.
#[no_mangle]
#[inline(never)]
extern "C" fn counted_edits(run: &mut Run) {
    apply(run);
    black_box(&run.answers);
}

#[inline(never)]
fn apply(run: &mut Run) {
    for (edit, answer) in run.edits.iter().zip(run.answers.iter_mut()) {
        *answer = run.program.make(N, edit, Slices::of_sheet(run.sheet));
    }
}

fn script(graph: &graphs::Graph) -> Vec<Call> {
    let mut rng = Rng::new(SEED);
    let mut edges = graph.edges();
    rng.shuffle(&mut edges);
    edges.truncate(EDGES);
    let edits = [edge_edits(&edges), vertex_edits(&edges_at(graph, &mut rng, VERTICES))].concat();
    edits
        .chunks(BETWEEN)
        .enumerate()
        .flat_map(|(place, edits)| [edits, &[refused(edits[edits.len() - 1], place)]].concat())
        .collect()
}

/// An edit that is refused right after the one given: the same again, or, in every other place, an insertion the other way round.
fn refused(edit: Call, place: usize) -> Call {
    match edit {
        Call::Insert(Edges::One { from, to }) if place % 2 == 0 => Call::Insert(Edges::one(to, from)),
        Call::Insert(Edges::At { v, predecessors, successors }) if place % 2 == 0 => {
            Call::Insert(Edges::at(v, successors, predecessors))
        }
        _ => edit,
    }
}

/// A sum by which other answers or other words are very likely to be found out.
fn sum(answers: &[Answer], sheet: &[u64]) -> u64 {
    let answers = answers.iter().flat_map(|answer| [answer.number, answer.place, answer.value]);
    answers
        .chain(sheet.iter().copied())
        .fold(0, |sum, word| Rng::new(sum ^ word).word())
}
