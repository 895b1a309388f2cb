//! The recurrence that the counts of an acyclic graph satisfy, modulo 2 to the 64: the count from i to j is 1 if i is j, else 0,
//! and to it the sum of the counts from b to j over the edges from i to b. Some graphs with a cycle have counts that satisfy it
//! too.

use crate::model::{self, Counts, Graph};

pub fn holds(graph: &Graph, counts: &Counts) -> bool {
    let n = graph.len();
    (0..n).all(|i| {
        (0..n).all(|j| {
            let passed_on = (0..n).filter(|&b| graph[i][b]).map(|b| counts[b][j]);
            counts[i][j] == passed_on.fold(u64::from(i == j), u64::wrapping_add)
        })
    })
}

/// The only counts that satisfy the recurrence, or nothing if there are none or many: the inverse of the identity less the graph,
/// worked out by clearing one column after another around a pivot that is odd.
pub fn solve(graph: &Graph) -> Option<Counts> {
    let n = graph.len();
    let mut left = model::identity(n);
    for i in 0..n {
        for j in (0..n).filter(|&j| graph[i][j]) {
            left[i][j] = left[i][j].wrapping_sub(1);
        }
    }
    let mut right = model::identity(n);
    for column in 0..n {
        let pivot = (column..n).find(|&i| left[i][column] % 2 == 1)?;
        left.swap(column, pivot);
        right.swap(column, pivot);
        let inverse = inverse(left[column][column]);
        scale(&mut left[column], inverse);
        scale(&mut right[column], inverse);
        for i in (0..n).filter(|&i| i != column) {
            let times = left[i][column];
            subtract(&mut left, i, column, times);
            subtract(&mut right, i, column, times);
        }
    }
    Some(right)
}

/// The number whose product with the odd number is 1. Each step doubles the number of low bits that are right, 3 at first.
fn inverse(odd: u64) -> u64 {
    let step = |guess: u64| guess.wrapping_mul(2u64.wrapping_sub(odd.wrapping_mul(guess)));
    (0..5).fold(odd, |guess, _| step(guess))
}

fn scale(row: &mut [u64], times: u64) {
    for word in row {
        *word = word.wrapping_mul(times);
    }
}

/// Takes so many times another row off a row.
fn subtract(rows: &mut Counts, from: usize, other: usize, times: u64) {
    if times != 0 {
        let other = rows[other].clone();
        for (word, subtrahend) in rows[from].iter_mut().zip(other) {
            *word = word.wrapping_sub(times.wrapping_mul(subtrahend));
        }
    }
}
