//! The model of the questions about paths, as document 01 words them: whether there is a path without an edge, a path by its
//! number, and a path's number. They are answered from the rows and counts as these stand, on any words.

use crate::call::{Buffers, Call};
use crate::model::{self, bit, Verdict};
use std::num::Wrapping;

/// Why a walk goes astray (9), and why a list of vertices is no path (12).
pub const NO_EDGE_FITS: &str = "no edge fits";
pub const NOT_ARRIVED: &str = "n vertices without arriving";
pub const NUMBER_LEFT: &str = "k not 0 on arriving";
pub const NO_VERTICES: &str = "no vertices";
pub const TOO_MANY: &str = "more than n vertices";
pub const NO_EDGE: &str = "two neighbours without an edge";

pub const GROUNDS: [&str; 6] = [NO_EDGE_FITS, NOT_ARRIVED, NUMBER_LEFT, NO_VERTICES, TOO_MANY, NO_EDGE];

/// A sheet whose length is right for n.
#[derive(Clone, Copy)]
pub struct Sheet<'a> {
    pub n: usize,
    pub words: &'a [u64],
}

impl Sheet<'_> {
    pub fn edge(&self, from: usize, to: usize) -> bool {
        bit(self.words[from], to)
    }

    pub fn count(&self, from: usize, to: usize) -> Wrapping<u64> {
        Wrapping(self.words[model::count_index(self.n, from, to)])
    }

    /// The vertices to which an edge runs, ascending.
    pub fn successors(&self, from: usize) -> Vec<usize> {
        (0..self.n).filter(|&to| self.edge(from, to)).collect()
    }
}

pub fn reaches_without(n: usize, words: &[u64], (from, to): (usize, usize), (edge_from, edge_to): (usize, usize)) -> Verdict {
    model::check_sizes(n, words)?;
    if [from, to, edge_from, edge_to].iter().any(|&vertex| vertex >= n) {
        return Err(3);
    }
    let sheet = Sheet { n, words };
    if !sheet.edge(edge_from, edge_to) {
        return Err(7);
    }
    let through = sheet.count(from, edge_from) * sheet.count(edge_to, to);
    Ok(u64::from(through != sheet.count(from, to)))
}

pub fn unrank(n: usize, words: &[u64], (from, to): (usize, usize), k: u64, path: &mut [u8]) -> Verdict {
    model::check_sizes(n, words)?;
    if from >= n || to >= n {
        return Err(3);
    }
    if path.len() < n {
        return Err(10);
    }
    let sheet = Sheet { n, words };
    if k >= sheet.count(from, to).0 {
        return Err(11);
    }
    let vertices = find(&sheet, from, to, k).map_err(|_| 9u64)?;
    write_path(&vertices, path);
    Ok(vertices.len() as u64)
}

/// Puts the vertices in the first places; the rest stay.
pub fn write_path(vertices: &[usize], path: &mut [u8]) {
    for (place, &vertex) in path.iter_mut().zip(vertices) {
        *place = vertex as u8;
    }
}

/// The vertices of path number k, or why there are none.
fn find(sheet: &Sheet, from: usize, to: usize, mut k: u64) -> Result<Vec<usize>, &'static str> {
    let mut path = vec![from];
    let mut at = from;
    while at != to {
        if path.len() == sheet.n {
            return Err(NOT_ARRIVED);
        }
        (at, k) = step(sheet, at, to, k).ok_or(NO_EDGE_FITS)?;
        path.push(at);
    }
    if k == 0 {
        Ok(path)
    } else {
        Err(NUMBER_LEFT)
    }
}

/// The next vertex and what is left of k.
fn step(sheet: &Sheet, at: usize, to: usize, mut k: u64) -> Option<(usize, u64)> {
    for b in sheet.successors(at) {
        let count = sheet.count(b, to).0;
        if k < count {
            return Some((b, k));
        }
        k -= count;
    }
    None
}

pub fn rank(n: usize, words: &[u64], path: &[u8]) -> Verdict {
    model::check_sizes(n, words)?;
    if path.iter().any(|&vertex| usize::from(vertex) >= n) {
        return Err(3);
    }
    let sheet = Sheet { n, words };
    if why_no_path(&sheet, path).is_some() {
        return Err(12);
    }
    Ok(number_of(&sheet, path))
}

/// Why the vertices, all below n, are no path. They may repeat.
fn why_no_path(sheet: &Sheet, path: &[u8]) -> Option<&'static str> {
    if path.is_empty() {
        return Some(NO_VERTICES);
    }
    if path.len() > sheet.n {
        return Some(TOO_MANY);
    }
    steps(path).any(|(x, y)| !sheet.edge(x, y)).then_some(NO_EDGE)
}

/// The steps of a list of vertices, each from one vertex to the next.
fn steps(path: &[u8]) -> impl Iterator<Item = (usize, usize)> + '_ {
    path.windows(2).map(|pair| (usize::from(pair[0]), usize::from(pair[1])))
}

/// The sum of the counts to the path's end that are passed over, modulo 2 to the 64.
fn number_of(sheet: &Sheet, path: &[u8]) -> u64 {
    let end = usize::from(path[path.len() - 1]);
    let passed_over = steps(path).flat_map(|(x, y)| sheet.successors(x).into_iter().filter(move |&b| b < y));
    passed_over.map(|b| sheet.count(b, end)).sum::<Wrapping<u64>>().0
}

/// On which of its grounds a call was refused by 9 or 12.
pub fn ground(n: usize, call: &Call, lent: &Buffers, number: u64) -> Option<&'static str> {
    let sheet = Sheet { n, words: &lent.sheet };
    match (*call, number) {
        (Call::Unrank { from, to, k }, 9) => find(&sheet, from, to, k).err(),
        (Call::Rank, 12) => why_no_path(&sheet, &lent.bytes),
        _ => None,
    }
}
