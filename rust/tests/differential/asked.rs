//! The arguments of the questions about paths, drawn: vertices, an edge, a number, a buffer to write, a path. These are drawn for
//! a sheet so that the question is accepted, and then something wrong is often put in.

use crate::arguments::{edge_there, no_vertex, vertex};
use crate::call::Call;
use crate::graphs;
use crate::model;
use crate::questions::Sheet;
use crate::rng::Rng;

/// A question and the bytes lent with it.
pub type Asked = (Call, Vec<u8>);

/// The sheet, if its length is right for n.
fn right_sheet(n: usize, words: &[u64]) -> Option<Sheet<'_>> {
    model::check_sizes(n, words).is_ok().then_some(Sheet { n, words })
}

/// Two vertices that fit; any two if none do.
fn pair(rng: &mut Rng, n: usize, fits: impl Fn(usize, usize) -> bool) -> (usize, usize) {
    let pairs = graphs::edges(&graphs::of_rule(n, fits));
    if pairs.is_empty() {
        (rng.below(n), rng.below(n))
    } else {
        rng.pick(&pairs)
    }
}

pub fn reaches_without(rng: &mut Rng, n: usize, words: &[u64]) -> Asked {
    let mut vertices = match right_sheet(n, words) {
        Some(sheet) => through_an_edge(rng, &sheet),
        None => [(); 4].map(|()| vertex(rng, n)),
    };
    while rng.one_in(6) {
        vertices = spoilt_vertices(rng, n, vertices);
    }
    let [from, to, edge_from, edge_to] = vertices;
    (Call::ReachesWithout { from, to, edge_from, edge_to }, Vec::new())
}

/// The ends of what may be a path through an edge, often those of the edge itself; and the edge.
fn through_an_edge(rng: &mut Rng, sheet: &Sheet) -> [usize; 4] {
    let (u, v) = edge_there(rng, sheet.n, sheet.words);
    let fits = |from: usize, to: usize| sheet.count(from, u).0 != 0 && sheet.count(v, to).0 != 0;
    let (from, to) = pair(rng, sheet.n, fits);
    let (from, to) = rng.weighted(&[(6, (from, to)), (2, (u, to)), (2, (from, v)), (1, (u, v)), (1, (from, from))]);
    [from, to, u, v]
}

fn spoilt_vertices(rng: &mut Rng, n: usize, vertices: [usize; 4]) -> [usize; 4] {
    let [from, to, u, v] = vertices;
    match rng.below(5) {
        0 => [to, from, u, v],
        1 => [from, to, v, u],
        2 => [from, to, vertex(rng, n), vertex(rng, n)],
        _ => {
            let mut others = vertices;
            others[rng.below(4)] = no_vertex(rng, n);
            others
        }
    }
}

pub fn unrank(rng: &mut Rng, n: usize, words: &[u64]) -> Asked {
    let sheet = right_sheet(n, words);
    let (mut from, mut to) = match sheet {
        Some(sheet) => {
            let least = 1 + rng.word() % 2;
            pair(rng, n, |from, to| from != to && sheet.count(from, to).0 >= least)
        }
        None => (vertex(rng, n), vertex(rng, n)),
    };
    let count = sheet.map_or_else(|| rng.word(), |sheet| sheet.count(from, to).0);
    match rng.below(24) {
        0 => from = to,
        1 => to = from,
        2 => from = no_vertex(rng, n),
        3 => to = no_vertex(rng, n),
        _ => (),
    }
    let k = number(rng, count);
    (Call::Unrank { from, to, k }, buffer(rng, n))
}

/// The number of a path, mostly below the count.
fn number(rng: &mut Rng, count: u64) -> u64 {
    let (below, small, any) = (rng.word() % count.max(1), rng.word() % 8, rng.word());
    let [one_less, one_more] = [count.wrapping_sub(1), count.wrapping_add(1)];
    rng.weighted(&[
        (4, 0),
        (8, below),
        (4, one_less),
        (2, count),
        (1, one_more),
        (3, small),
        (1, count / 2),
        (1, u64::MAX),
        (1, any),
    ])
}

/// Any bytes, mostly enough for a path.
fn buffer(rng: &mut Rng, n: usize) -> Vec<u8> {
    let n = n.min(64);
    let (more, fewer) = (n + rng.below(80), rng.below(n.max(1)));
    let length = rng.weighted(&[
        (8, n),
        (3, n + 1),
        (4, more),
        (1, 64),
        (1, 0),
        (1, n.saturating_sub(1)),
        (1, fewer),
    ]);
    rng.bytes(length)
}

pub fn rank(rng: &mut Rng, n: usize, words: &[u64]) -> Asked {
    let bound = n.clamp(1, 64);
    let mut path = match right_sheet(n, words) {
        Some(sheet) => walked(rng, &sheet),
        None => {
            let length = rng.below(2 * bound);
            vertices_below(rng, bound, length)
        }
    };
    while rng.one_in(3) {
        spoil_path(rng, bound, &mut path);
    }
    (Call::Rank, path)
}

fn vertices_below(rng: &mut Rng, bound: usize, count: usize) -> Vec<u8> {
    (0..count).map(|_| rng.below(bound) as u8).collect()
}

/// Along edges at random, through few vertices, as many as there are, or on past n of them.
fn walked(rng: &mut Rng, sheet: &Sheet) -> Vec<u8> {
    let (few, past) = (1 + rng.below(sheet.n), sheet.n + 1 + rng.below(3));
    let most = rng.weighted(&[(4, sheet.n), (2, few), (1, past)]);
    let (mut at, _) = pair(rng, sheet.n, |from, to| sheet.edge(from, to));
    let mut path = vec![at as u8];
    while path.len() < most {
        let next = sheet.successors(at);
        if next.is_empty() {
            break;
        }
        at = rng.pick(&next);
        path.push(at as u8);
    }
    path
}

fn spoil_path(rng: &mut Rng, bound: usize, path: &mut Vec<u8>) {
    let (place, other) = (rng.below(path.len().max(1)), rng.below(path.len().max(1)));
    let outside = (bound + rng.below(256 - bound)) as u8;
    match rng.below(10) {
        0 => path.clear(),
        1 => path.reverse(),
        2 => path.truncate(place),
        3 => {
            let count = rng.pick(&[1, bound, 2 * bound, 200]);
            path.extend(vertices_below(rng, bound, count));
        }
        4 => path.push(outside),
        _ if path.is_empty() => (),
        5 => path.swap(place, other),
        6 => path.insert(place, path[other]),
        7 => path[place] = rng.below(bound) as u8,
        8 => path[place] = rng.pick(&[bound as u8, outside, 255]),
        _ => drop(path.remove(place)),
    }
}
