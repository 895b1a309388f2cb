//! The model of plans, as document 01 words them: a plan's records are read one by one and made on the edges alone, cycles are
//! looked for by a search, and the counts are worked out once, after the last record.

use crate::call::{accepted, refused, Buffers};
use crate::graphs;
use crate::model::{self, Graph, Verdict};
use lugloquat::sys::Answer;

/// The bytes of a record, and the most that a plan has.
pub const RECORD: usize = 8;
pub const MOST: usize = 32_768;

/// A record that has the form.
#[derive(Clone, Copy)]
pub struct Record {
    inserts: bool,
    from: usize,
    to: usize,
}

/// By which number a record is refused on these edges, if it is.
fn refuses(graph: &Graph, Record { inserts, from, to }: Record) -> Option<u64> {
    if from >= graph.len() || to >= graph.len() {
        return Some(3);
    }
    if !inserts {
        return (!graph[from][to]).then_some(7);
    }
    if from == to {
        Some(5)
    } else if graph[from][to] {
        Some(6)
    } else {
        leads(graph, to, from).then_some(8)
    }
}

/// Whether one vertex is the other, or edges lead from it there.
pub fn leads(graph: &Graph, from: usize, to: usize) -> bool {
    let mut seen = vec![false; graph.len()];
    let mut open = vec![from];
    seen[from] = true;
    while let Some(at) = open.pop() {
        if at == to {
            return true;
        }
        for next in 0..graph.len() {
            if graph[at][next] && !seen[next] {
                seen[next] = true;
                open.push(next);
            }
        }
    }
    false
}

/// 9: the sheet is not valid.
fn check_valid(n: usize, sheet: &[u64]) -> Result<(), u64> {
    match model::validate(n, sheet)? {
        1 => Ok(()),
        _ => Err(9),
    }
}

/// Whether a plan is refused by 13.
pub fn is_of_bad_length(length: usize) -> bool {
    length % RECORD != 0 || length > MOST
}

pub fn read(n: usize, lent: &mut Buffers) -> Answer {
    if let Err(number) = check_valid(n, &lent.sheet) {
        return refused(number);
    }
    if is_of_bad_length(lent.bytes.len()) {
        return refused(13);
    }
    let mut graph = model::graph_of(n, &lent.sheet);
    for (before, bytes) in lent.bytes.chunks(RECORD).enumerate() {
        if let Err(number) = make(bytes, &mut graph) {
            let (place, value) = (before as u64 + 1, 0);
            return Answer { number, place, value };
        }
    }
    let counts = model::counts_of(&graph).expect("no record closes a cycle");
    model::write_rows(&graph, &mut lent.sheet);
    model::write_counts(&counts, &mut lent.sheet);
    accepted(model::set_bits(n, &lent.sheet))
}

/// The record of these bytes, if they have the form.
pub fn record(bytes: &[u8]) -> Option<Record> {
    let (from, to) = vertices(bytes)?;
    match bytes {
        [b'L', b' ', _, _, b' ', _, _, b'\n'] => Some(Record { inserts: true, from, to }),
        [b'T', b' ', _, _, b' ', _, _, b'\n'] => Some(Record { inserts: false, from, to }),
        _ => None,
    }
}

/// The vertices that a record names, if they are digits. The bytes around them are not looked at.
pub fn vertices(record: &[u8]) -> Option<(usize, usize)> {
    let &[_, _, a, b, _, c, d, _] = record else {
        return None;
    };
    let digit = |byte: u8| "0123456789".find(char::from(byte));
    let vertex = |tens: u8, ones: u8| Some(10 * digit(tens)? + digit(ones)?);
    Some((vertex(a, b)?, vertex(c, d)?))
}

/// Makes a record on the edges, or says by which number it is refused.
fn make(bytes: &[u8], graph: &mut Graph) -> Result<(), u64> {
    let record = record(bytes).ok_or(14u64)?;
    match refuses(graph, record) {
        Some(number) => Err(number),
        None => {
            graph[record.from][record.to] = record.inserts;
            Ok(())
        }
    }
}

pub fn write(n: usize, sheet: &[u64], plan: &mut [u8]) -> Verdict {
    check_valid(n, sheet)?;
    let edges = graphs::edges(&model::graph_of(n, sheet));
    if plan.len() < RECORD * edges.len() {
        return Err(10);
    }
    let text: String = edges.iter().map(|(from, to)| format!("L {from:02} {to:02}\n")).collect();
    plan[..text.len()].copy_from_slice(text.as_bytes());
    Ok(text.len() as u64)
}
