//! Plans, drawn for the edges of a sheet: good ones, from a random walk of insertions and deletions; good ones with a record to refuse
//! or with some bytes changed; ones of lengths about the greatest; and records and bytes of any kind.

use crate::damaged::{self, Damage};
use crate::graphs;
use crate::model::Graph;
use crate::plans::{self, MOST, RECORD};
use crate::rng::Rng;

/// What makes a plan of one kind, before anything is done to its bytes.
type Maker = fn(&mut Rng, &Graph) -> Vec<u8>;

/// Each kind: how often, its name, its maker, and what is done to its bytes.
type Kinds = [(usize, (&'static str, Maker, Damage))];

pub const AND_BACK: &str = "a good plan and back";

const KINDS: &Kinds = &[
    (3, ("no record", |_, _| Vec::new(), damaged::none)),
    (12, ("a good plan", good, damaged::none)),
    (4, (AND_BACK, and_back, damaged::none)),
    (12, ("a good plan, one byte random", good, damaged::byte_random)),
    (12, ("a good plan, one byte a near miss", good, damaged::byte_near)),
    (10, ("a good plan, one digit random", good, damaged::digit_random)),
    (4, ("a good plan, 1 to 9 bytes cut off", good, damaged::cut_off)),
    (4, ("a good plan, 1 to 9 bytes added", good, damaged::added)),
    (4, ("a good plan, two records exchanged", good, damaged::exchanged)),
    (12, ("a good plan and a record to refuse", then_refused, damaged::none)),
    (8, ("a good plan, broken twice", then_refused, damaged::twice)),
    (4, ("records of any edges", any_records, damaged::none)),
    (2, ("random bytes", random_bytes, damaged::none)),
];

const LONG_KINDS: &Kinds = &[
    (2, ("a good plan of 32,760 bytes", of_4_095, damaged::none)),
    (3, ("a good plan of 32,768 bytes", of_4_096, damaged::none)),
    (3, ("a good plan of 32,768 bytes, one random", of_4_096, damaged::byte_random)),
    (1, ("a good plan of 32,768 bytes and one more", of_4_096, damaged::one_added)),
    (2, ("a good plan of 32,776 bytes", of_4_097, damaged::none)),
];

/// The names of all kinds.
pub fn kinds() -> impl Iterator<Item = &'static str> {
    KINDS.iter().chain(LONG_KINDS).map(|&(_, (name, ..))| name)
}

/// A plan for the edges of a sheet, and its kind.
pub fn make(rng: &mut Rng, graph: &Graph) -> (Vec<u8>, &'static str) {
    make_of(KINDS, rng, graph)
}

/// One of a length about the greatest.
pub fn make_long(rng: &mut Rng, graph: &Graph) -> (Vec<u8>, &'static str) {
    make_of(LONG_KINDS, rng, graph)
}

fn make_of(kinds: &Kinds, rng: &mut Rng, graph: &Graph) -> (Vec<u8>, &'static str) {
    let (name, maker, damage) = rng.weighted(kinds);
    let plan = maker(rng, graph);
    (damage(rng, plan), name)
}

/// The bytes of a record.
pub fn record(letter: char, from: usize, to: usize) -> Vec<u8> {
    format!("{letter} {from:02} {to:02}\n").into_bytes()
}

/// So many records that are all accepted, one after the other, on the edges, which become those that they leave. One vertex has
/// none.
fn walk(rng: &mut Rng, graph: &mut Graph, records: usize) -> Vec<u8> {
    let n = graph.len();
    let deleted_once_in = rng.pick(&[1, 1, 2, 8]);
    let mut plan = Vec::new();
    while n > 1 && plan.len() < RECORD * records {
        let (from, to) = (rng.below(n), rng.below(n));
        if graph[from][to] {
            if rng.one_in(deleted_once_in) {
                graph[from][to] = false;
                plan.extend(record('T', from, to));
            }
        } else if !plans::leads(graph, to, from) {
            graph[from][to] = true;
            plan.extend(record('L', from, to));
        }
    }
    plan
}

/// How many records a plan has: mostly few.
fn few(rng: &mut Rng) -> usize {
    let most = rng.weighted(&[(6, 4), (6, 16), (2, 80), (1, 300)]);
    1 + rng.below(most)
}

fn good(rng: &mut Rng, graph: &Graph) -> Vec<u8> {
    let records = few(rng);
    walk(rng, &mut graph.clone(), records)
}

/// A good plan, then its records undone from the last to the first.
fn and_back(rng: &mut Rng, graph: &Graph) -> Vec<u8> {
    let there = good(rng, graph);
    let mut plan = there.clone();
    for record in there.chunks(RECORD).rev() {
        plan.push(if record[0] == b'L' { b'T' } else { b'L' });
        plan.extend_from_slice(&record[1..]);
    }
    plan
}

/// A good plan of so many records; on one vertex none is good, and it has others.
fn long(rng: &mut Rng, graph: &Graph, records: usize) -> Vec<u8> {
    let mut plan = walk(rng, &mut graph.clone(), records);
    while plan.len() < RECORD * records {
        plan.extend(record('L', 0, 0));
    }
    plan
}

fn of_4_095(rng: &mut Rng, graph: &Graph) -> Vec<u8> {
    long(rng, graph, MOST / RECORD - 1)
}

fn of_4_096(rng: &mut Rng, graph: &Graph) -> Vec<u8> {
    long(rng, graph, MOST / RECORD)
}

fn of_4_097(rng: &mut Rng, graph: &Graph) -> Vec<u8> {
    long(rng, graph, MOST / RECORD + 1)
}

/// A good plan, a record that is mostly refused on the edges that it leaves, and what may come after that.
fn then_refused(rng: &mut Rng, graph: &Graph) -> Vec<u8> {
    let mut graph = graph.clone();
    let records = rng.below(12);
    let mut plan = walk(rng, &mut graph, records);
    plan.extend(to_refuse(rng, &graph));
    if rng.one_in(2) {
        plan.extend(good(rng, &graph));
    }
    plan
}

fn to_refuse(rng: &mut Rng, graph: &Graph) -> Vec<u8> {
    let n = graph.len();
    let (letter, from, to) = (rng.pick(&['L', 'T']), rng.below(n), rng.below(n));
    let outside = rng.pick(&[n, n, n + 1, 64, 99]);
    let edges = graphs::edges(graph);
    match rng.below(8) {
        0 => record(letter, outside, to),
        1 => record(letter, from, outside),
        2 => record(letter, from, from),
        3 => record('T', from, to),
        _ if edges.is_empty() => record('T', from, to),
        4 | 5 => {
            let (first, second) = rng.pick(&edges);
            record('L', first, second)
        }
        _ => {
            let (first, last) = a_way(rng, graph, &edges);
            record('L', last, first)
        }
    }
}

/// Two vertices with edges that lead from the one to the other.
fn a_way(rng: &mut Rng, graph: &Graph, edges: &[(usize, usize)]) -> (usize, usize) {
    let (first, mut last) = rng.pick(edges);
    for _ in 0..rng.below(graph.len()) {
        let next: Vec<usize> = (0..graph.len()).filter(|&b| graph[last][b]).collect();
        if next.is_empty() {
            break;
        }
        last = rng.pick(&next);
    }
    (first, last)
}

/// Records of the form, of vertices mostly below n.
fn any_records(rng: &mut Rng, graph: &Graph) -> Vec<u8> {
    let bound = graph.len() + rng.below(2);
    let one = |rng: &mut Rng| record(rng.pick(&['L', 'L', 'T']), rng.below(bound), rng.below(bound));
    (0..few(rng)).flat_map(|_| one(rng)).collect()
}

fn random_bytes(rng: &mut Rng, _: &Graph) -> Vec<u8> {
    let (whole, any) = (RECORD * rng.below(20), rng.below(100));
    let length = rng.pick(&[whole, any]);
    rng.bytes(length)
}
