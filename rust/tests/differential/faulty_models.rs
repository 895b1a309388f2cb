//! The faulty models: each is the model with one small change, which the comparison with the library has to notice. First come the
//! tables, then the rules that they name.

use crate::call::{accepted, refused, Buffers, Call, Edges};
use crate::edits::{after_deletion, after_insertion, Edit, Formula, Terms};
use crate::faulty::{faults, Fault, Right, ANY};
use crate::graphs;
use crate::listing::LIST;
use crate::lists::{BOOK, START};
use crate::model;
use crate::plan_cases::{UNDONE, WRITTEN};
use crate::plans::RECORD;
use crate::questions::Sheet;
use crate::recurrence;
use lugloquat::sys::Answer;
use std::num::Wrapping;

/// The least number that does not fit in a byte, and the least that does not fit in 32 bits.
const ABOVE_BYTE: u64 = 1 << u8::BITS;
const ABOVE_HALF: u64 = 1 << u32::BITS;

/// The greatest count of a valid sheet.
const GREATEST_COUNT: u64 = 1 << 62;

/// An edit counts as a later one if the sheet has so many edges.
const LATER: u64 = 10;

/// For each call a fault of each kind that it can have.
pub const OF_CALLS: &[Fault] = faults! {
    "empty" {
        order: "the length is looked at before n", (1, 2, has_wrong_length);
        value: "it is n", |right, _| right.n as u64;
        words: "the last one stays", last_word_stays;
    }
    "insert_edge" {
        order: "a cycle is looked for before an edge already there", (6, 8, |right| right.meets(Edit::closes_cycle));
        value: "bits at n and above are not counted", bits_below_n;
        words: "the products are those of the low halves", |right, words| recompute(right, words, of_low_halves);
    }
    "delete_edge" {
        order: "an edge that is missing is looked for before the vertices", (3, 7, lacks_edge);
        value: "an edge from a vertex to itself is not counted", bits_off_diagonal;
        words: "a count stops at 0", |right, words| recompute(right, words, stopping_at_0);
    }
    "insert_edges_at" {
        order: "an edge already there is looked for before one from a vertex to itself", (5, 6, |right| right.meets(Edit::has_edge_there));
        value: "bits at n and above are not counted", bits_below_n;
        words: "the last one stays", last_word_stays;
    }
    "delete_edges_at" {
        order: "the masks are looked at before the vertex", (3, 4, has_mask_to_refuse);
        value: "an edge that both masks name is taken off twice", bits_less_edges_named;
        words: "an edge that both masks name is inverted twice", edge_named_twice_stays;
    }
    "path_count" {
        order: "the vertices are looked at before the length", (2, 3, has_vertex_to_refuse);
        value: "it is 1 from a vertex to itself", one_to_itself;
    }
    "reaches_without" {
        order: "an edge that is missing is looked for before the vertices", (3, 7, lacks_edge);
        value: "the product is not taken modulo 2 to the 64", differs_from_whole_product;
    }
    "unrank" {
        order: "the count is looked at before the buffer", (10, 11, has_no_such_path);
        value: "a vertex that the walk comes to again is counted once", different_vertices;
        bytes: "a walk that fails has written its first vertex", first_vertex_is_written;
    }
    "rank" {
        order: "the number of vertices is looked at before the vertices", (3, 12, |right| right.before.bytes.len() > right.n);
        value: "the last step does not count", rank_without_last_step => LIST;
    }
    "read_plan" {
        order: "a vertex is looked at before the line feed", (14, 3, has_record_with_vertex_to_refuse);
        place: "it is kept in a byte", |place| place % ABOVE_BYTE;
        value: "every record counts as an insertion", bits_and_records => UNDONE;
        words: "the records before a refused one stay", records_before_stay;
    }
    "write_plan" {
        order: "the buffer is looked at before the sheet", (9, 10, has_short_buffer);
        value: "it is the length of the buffer", |right, _| right.before.bytes.len() as u64;
        bytes: "the digits are octal", digits_are_octal => WRITTEN;
    }
    "recount" {
        order: "a cycle is looked for before a bit at n or above", (4, 8, |right| graphs::has_cycle(&right.graph()));
        value: "it is kept in a byte", |right, _| right.answer.value % ABOVE_BYTE;
        words: "a count is taken modulo 2 to the 62", greatest_count_becomes_0;
    }
    "validate" {
        order: "the length is looked at before n", (1, 2, has_wrong_length);
        value: "a cycle is let in if the recurrence holds and no count is above 2 to the 62", let_in_by_recurrence;
    }
};

/// The six wrong programs of document 01's clause c, of which the second is two faults, and its four wrong turnings.
pub const OF_DOCUMENT: &[Fault] = faults! {
    ANY { words: "later edits set bits but leave the counts alone", later_counts_stay => BOOK; }
    "insert_edge" { effect: "a cycle is found without looking", |right, answer, left| refuse(8, right, answer, left); }
    "unrank" { effect: "no such path is found, without looking", |right, answer, left| refuse(11, right, answer, left) => LIST; }
    "path_count" { value: "a count of 0 becomes 1", |right, _| right.answer.value.max(1); }
    ANY { effect: "every sheet is left alone and every edit accepted", nothing_changes; }
    ANY { effect: "every answer is the same", |_, answer, _| *answer = accepted(1); }
    ANY { effect: "everything is refused", |right, answer, left| refuse(2, right, answer, left); }
    "reaches_without" { effect: "the product is tested though the edge is missing", missing_edge_is_let_in => LIST; }
    "delete_edges_at" { words: "F × T has insertion's sign", |right, words| recompute(right, words, with_insertions_sign) => START; }
    "insert_edges_at" { effect: "a vertex that both masks have closes no cycle", shared_vertex_is_let_in; }
    "delete_edges_at" { words: "T is summed from changed counts", |right, words| recompute(right, words, with_changed_t); }
};

/// Faults that show that the number, the place and the value are compared in accepted and in refused calls, in all their bits.
pub const OF_ANSWERS: &[Fault] = faults! {
    ANY {
        effect: "a refused call's number is above 2 to the 32", |right, answer, _| if right.is_refused() { answer.number += ABOVE_HALF };
        effect: "a refused call's value is not 0", |right, answer, _| if right.is_refused() { answer.value = 1 };
        effect: "an accepted call's place is not 0", |right, answer, _| if right.is_accepted() { answer.place = 1 };
        value: "it is taken modulo 2 to the 32", |right, _| right.answer.value % ABOVE_HALF;
    }
};

/// Whether the length is not n + n × n, for an n that may be too great.
fn has_wrong_length(right: &Right) -> bool {
    right.before.sheet.len() != right.n.wrapping_mul(right.n).wrapping_add(right.n)
}

fn last_word_stays(right: &Right, words: &mut [u64]) {
    if let (Some(last), Some(before)) = (words.last_mut(), right.before.sheet.last()) {
        *last = *before;
    }
}

fn bits_below_n(right: &Right, left: &Buffers) -> u64 {
    graphs::edges(&model::graph_of(right.n, &left.sheet)).len() as u64
}

fn bits_off_diagonal(right: &Right, left: &Buffers) -> u64 {
    let on_diagonal = (0..right.n).filter(|&i| model::bit(left.sheet[i], i));
    right.answer.value - on_diagonal.count() as u64
}

/// Whether the edge that a call needs is missing from the row of its first vertex.
fn lacks_edge(right: &Right) -> bool {
    let (from, to) = match *right.call {
        Call::Delete(Edges::One { from, to }) => (from, to),
        Call::ReachesWithout { edge_from, edge_to, .. } => (edge_from, edge_to),
        _ => return false,
    };
    from < right.n && !model::members(right.before.sheet[from]).any(|vertex| vertex == to)
}

/// The vertices that the masks of a deletion name, one that both name twice.
fn vertices_named(right: &Right) -> impl Iterator<Item = usize> {
    let masks = match *right.call {
        Call::Delete(Edges::At { predecessors, successors, .. }) => [predecessors, successors],
        _ => [0, 0],
    };
    masks.into_iter().flat_map(model::members)
}

fn has_mask_to_refuse(right: &Right) -> bool {
    vertices_named(right).any(|vertex| vertex >= right.n)
}

fn bits_less_edges_named(right: &Right, _: &Buffers) -> u64 {
    right.set_bits().wrapping_sub(vertices_named(right).count() as u64)
}

/// The only edge that both masks can name runs from v to itself.
fn edge_named_twice_stays(right: &Right, words: &mut [u64]) {
    if let (true, Call::Delete(Edges::At { v, predecessors, successors })) = (right.is_accepted(), *right.call) {
        words[v] |= predecessors & successors & (1 << v);
    }
}

/// Computes the counts of an accepted edit one after the other by the rule: from the right formula, from what goes into it, and from
/// that as it is by then.
fn recompute(right: &Right, words: &mut [u64], rule: fn(Formula, &Terms, &Terms) -> Wrapping<u64>) {
    let (true, Some(edit)) = (right.is_accepted(), right.edit()) else {
        return;
    };
    let inserts = matches!(right.call, Call::Insert(_));
    let formula: Formula = if inserts { after_insertion } else { after_deletion };
    let old = model::stored_counts(right.n, &right.before.sheet);
    let mut now = old.clone();
    for (i, j) in (0..right.n).flat_map(|i| (0..right.n).map(move |j| (i, j))) {
        now[i][j] = rule(formula, &edit.terms(&old, i, j), &edit.terms(&now, i, j)).0;
    }
    model::write_counts(&now, words);
}

fn of_low_halves(formula: Formula, old: &Terms, _: &Terms) -> Wrapping<u64> {
    let low = |number: Wrapping<u64>| number % Wrapping(ABOVE_HALF);
    formula(&Terms {
        count: old.count,
        to_v: low(old.to_v),
        from_v: low(old.from_v),
        f: low(old.f),
        t: low(old.t),
    })
}

fn stopping_at_0(formula: Formula, old: &Terms, _: &Terms) -> Wrapping<u64> {
    let taken_off = old.count - formula(old);
    Wrapping(old.count.0.saturating_sub(taken_off.0))
}

fn with_insertions_sign(_: Formula, old: &Terms, _: &Terms) -> Wrapping<u64> {
    old.count - (old.to_v * old.t + old.f * old.from_v + old.f * old.t)
}

fn with_changed_t(formula: Formula, old: &Terms, now: &Terms) -> Wrapping<u64> {
    formula(&Terms { t: now.t, ..*old })
}

fn has_vertex_to_refuse(right: &Right) -> bool {
    matches!(*right.call, Call::PathCount { from, to } if from >= right.n || to >= right.n)
}

fn one_to_itself(right: &Right, _: &Buffers) -> u64 {
    match *right.call {
        Call::PathCount { from, to } if from == to => 1,
        _ => right.answer.value,
    }
}

fn differs_from_whole_product(right: &Right, _: &Buffers) -> u64 {
    let Call::ReachesWithout { from, to, edge_from, edge_to } = *right.call else {
        return right.answer.value;
    };
    let count = |i: usize, j: usize| u128::from(right.sheet().count(i, j).0);
    u64::from(count(from, edge_from) * count(edge_to, to) != count(from, to))
}

fn has_no_such_path(right: &Right) -> bool {
    matches!(*right.call, Call::Unrank { from, to, k } if k >= right.sheet().count(from, to).0)
}

fn different_vertices(right: &Right, left: &Buffers) -> u64 {
    let path = &left.bytes[..right.answer.value as usize];
    (0..right.n).filter(|&vertex| path.contains(&(vertex as u8))).count() as u64
}

fn first_vertex_is_written(right: &Right, path: &mut [u8]) {
    if let (Call::Unrank { from, .. }, 9) = (*right.call, right.answer.number) {
        path[0] = from as u8;
    }
}

/// The last step is a path of its own, and its number is the sum of the counts passed over in it.
fn rank_without_last_step(right: &Right, _: &Buffers) -> u64 {
    let mut last_step = right.before.clone();
    if let [.., x, y] = last_step.bytes[..] {
        last_step.bytes = vec![x, y];
    }
    let passed_over = model::answer(right.n, right.call, &mut last_step).value;
    right.answer.value.wrapping_sub(passed_over)
}

/// Whether the record would be refused by 3 if it ended in a line feed.
fn has_record_with_vertex_to_refuse(right: &Right) -> bool {
    let mut ended = right.before.clone();
    ended.bytes[RECORD * right.answer.place as usize - 1] = b'\n';
    let answer = model::answer(right.n, right.call, &mut ended);
    (answer.number, answer.place) == (3, right.answer.place)
}

fn bits_and_records(right: &Right, _: &Buffers) -> u64 {
    right.set_bits() + (right.before.bytes.len() / RECORD) as u64
}

fn records_before_stay(right: &Right, words: &mut [u64]) {
    if right.answer.place > 0 {
        let mut read = right.before.clone();
        read.bytes.truncate(RECORD * (right.answer.place as usize - 1));
        model::answer(right.n, right.call, &mut read);
        words.copy_from_slice(&read.sheet);
    }
}

fn has_short_buffer(right: &Right) -> bool {
    right.before.bytes.len() < RECORD * right.set_bits() as usize
}

fn digits_are_octal(right: &Right, plan: &mut [u8]) {
    if right.is_accepted() {
        let record = |(from, to): (usize, usize)| format!("L {from:02o} {to:02o}\n");
        let text: String = graphs::edges(&right.graph()).into_iter().map(record).collect();
        plan[..text.len()].copy_from_slice(text.as_bytes());
    }
}

fn greatest_count_becomes_0(right: &Right, words: &mut [u64]) {
    if right.is_accepted() {
        words[right.n..].iter_mut().for_each(|count| *count %= GREATEST_COUNT);
    }
}

fn let_in_by_recurrence(right: &Right, left: &Buffers) -> u64 {
    let (graph, counts) = (right.graph(), model::stored_counts(right.n, &left.sheet));
    let seems_valid = recurrence::holds(&graph, &counts) && counts.iter().flatten().all(|&count| count <= GREATEST_COUNT);
    u64::from(seems_valid && !model::has_stray_bit(right.n, &left.sheet))
}

fn later_counts_stay(right: &Right, words: &mut [u64]) {
    if right.call.is_edit() && right.is_accepted() && right.set_bits() >= LATER {
        words[right.n..].copy_from_slice(&right.before.sheet[right.n..]);
    }
}

/// Refuses by that number what is accepted.
fn refuse(number: u64, right: &Right, answer: &mut Answer, left: &mut Buffers) {
    if right.is_accepted() {
        *answer = refused(number);
        left.clone_from(right.before);
    }
}

fn nothing_changes(right: &Right, answer: &mut Answer, left: &mut Buffers) {
    if right.call.is_edit() && model::check_sizes(right.n, &right.before.sheet).is_ok() {
        *answer = accepted(right.set_bits());
    }
    left.sheet.clone_from(&right.before.sheet);
}

fn missing_edge_is_let_in(right: &Right, answer: &mut Answer, _: &mut Buffers) {
    if let (Call::ReachesWithout { edge_from, edge_to, .. }, 7) = (*right.call, right.answer.number) {
        let mut with_edge = right.before.clone();
        with_edge.sheet[edge_from] |= 1 << edge_to;
        *answer = model::answer(right.n, right.call, &mut with_edge);
    }
}

/// Looks for a cycle as if every count from a vertex to itself were 0.
fn shared_vertex_is_let_in(right: &Right, answer: &mut Answer, left: &mut Buffers) {
    let (8, Some(edit)) = (right.answer.number, right.edit()) else {
        return;
    };
    let mut words = right.before.sheet.clone();
    (0..right.n).for_each(|i| words[model::count_index(right.n, i, i)] = 0);
    if !edit.closes_cycle(&Sheet { n: right.n, words: &words }) {
        *answer = accepted(edit.enter(right.n, &mut left.sheet));
    }
}
