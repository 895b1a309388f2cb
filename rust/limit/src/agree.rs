//! The check that the two programs agree, in every answer and in every word and byte, before anything is measured.

use crate::{
    cases::{self, Case},
    plain::{add_counts, count_from_scratch, PLAIN},
    work::Work,
};
use calls::{rng::Rng, Call, Program, Slices, OURS};
use lugloquat::sys::Answer;
use std::collections::BTreeMap;

/// The seed of the random calls.
const SEED: u64 = 64;
/// The calls on one random sheet, one after the other.
const CALLS_A_CASE: usize = 16;
/// Words and bytes before and after those that are lent; a call that changes them is found out.
const MARGIN: usize = 16;

/// How often each call was answered by each number.
pub type Tally = BTreeMap<(&'static str, u64), u64>;

/// A sheet for each program, with margins.
struct Sheets {
    ours: Vec<u64>,
    plain: Vec<u64>,
}

impl Sheets {
    fn new(sheet: &[u64]) -> Sheets {
        let margin = vec![0x5555_5555_5555_5555; MARGIN];
        let words = [&margin, sheet, &margin].concat();
        Sheets { ours: words.clone(), plain: words }
    }

    /// The words that are lent.
    fn lent(&self) -> &[u64] {
        &self.ours[MARGIN..self.ours.len() - MARGIN]
    }

    /// Makes the call by both programs, with the bytes that many bytes on from the beginning of an allocation.
    fn compare(&mut self, call: Call, n: usize, bytes: &[u8], shift: usize) -> Result<Answer, String> {
        let margin = vec![0x55; MARGIN + shift];
        let mut ours_bytes = [&margin, bytes, &margin].concat();
        let mut plain_bytes = ours_bytes.clone();
        let (words, place) = (MARGIN..self.ours.len() - MARGIN, MARGIN + shift..MARGIN + shift + bytes.len());
        let make = |program: &Program, sheet: &mut [u64], bytes: &mut [u8]| {
            let (sheet, bytes) = (&mut sheet[words.clone()], &mut bytes[place.clone()]);
            program.make(n, &call, Slices { sheet, bytes })
        };
        let ours = make(&OURS, &mut self.ours, &mut ours_bytes);
        let plain = make(&PLAIN, &mut self.plain, &mut plain_bytes);
        if ours == plain && self.ours == self.plain && ours_bytes == plain_bytes {
            return Ok(ours);
        }
        Err(format!(
            "{call:?}, n {n}, {} words, bytes {bytes:?}:\n{} {ours:?}\n{} {plain:?}\n{} words and {} bytes differ",
            words.len(),
            OURS.name,
            PLAIN.name,
            unlike(&self.ours, &self.plain),
            unlike(&ours_bytes, &plain_bytes)
        ))
    }
}

/// In how many places the two differ.
fn unlike<T: PartialEq>(one: &[T], other: &[T]) -> usize {
    one.iter().zip(other).filter(|(a, b)| a != b).count()
}

/// Compares random calls, refused ones included.
pub fn at_random(calls: usize) -> Result<Tally, String> {
    let mut tally = Tally::new();
    for round in 0..calls.div_ceil(CALLS_A_CASE) {
        let mut rng = Rng::new(SEED + round as u64);
        let case = Case::new(&mut rng);
        let mut sheets = Sheets::new(&case.sheet);
        for place in 0..CALLS_A_CASE {
            let (call, bytes) = cases::call(&mut rng, &case, sheets.lent());
            let shift = rng.below(8);
            let answer = sheets.compare(call, case.n, &bytes, shift);
            let answer = answer.map_err(|what| format!("random case {round}, call {place}: {what}"))?;
            *tally.entry((call.name(), answer.number)).or_default() += 1;
        }
    }
    Ok(tally)
}

/// Compares every call that is timed on the graph, and what is timed beside it with what it has to give.
pub fn on(work: &Work) -> Result<(), String> {
    let n = work.n();
    let mut sheets = Sheets::new(&work.sheet);
    for (call, bytes) in work.calls() {
        let answer = sheets
            .compare(call, n, &bytes, 0)
            .map_err(|what| format!("{}: {what}", work.graph.name))?;
        if answer.number != 0 {
            return Err(format!("{}: {call:?} is refused by {}", work.graph.name, answer.number));
        }
    }
    if sheets.lent() != work.sheet {
        return Err(format!("{}: after the calls the sheet is another", work.graph.name));
    }
    let mut sheet = work.sheet.clone();
    sheet[n..].fill(0x5555_5555_5555_5555);
    count_from_scratch(n, &mut sheet);
    if sheet != work.sheet {
        return Err(format!("{}: scratch_count gives other words", work.graph.name));
    }
    match add_counts(n, &sheet) == sheet[n..].iter().fold(0, |sum: u64, count| sum.wrapping_add(*count)) {
        true => Ok(()),
        false => Err(format!("{}: floor_pass gives another sum", work.graph.name)),
    }
}

#[cfg(test)]
mod tests {
    use super::*;
    use crate::graphs;

    #[test]
    fn random_calls_agree_and_every_number_comes_up() {
        let tally = at_random(40_000).unwrap_or_else(|what| panic!("{what}"));
        for about in calls::ALL {
            let mut numbers = [&[0], about.refusals].concat();
            numbers.sort();
            let of_call = tally.keys().filter(|(name, _)| *name == about.name);
            let came_up: Vec<u64> = of_call.map(|(_, number)| *number).collect();
            assert_eq!(came_up, numbers, "the numbers by which {} answered", about.name);
        }
    }

    #[test]
    fn timed_calls_agree() {
        for n in [4, 8, 16, 32, 64] {
            for graph in graphs::all(n) {
                on(&Work::new(graph)).unwrap_or_else(|what| panic!("{what}"));
            }
        }
    }
}
