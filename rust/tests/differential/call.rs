//! The calls that are compared, the buffers lent to them, and the outcomes that document 01 allows for each.

use calls::{About, Value, ALL};
pub use calls::{Call, Edges};
use lugloquat::sys::Answer;

/// The buffers of a case. Calls that take no path and no plan are lent no byte.
#[derive(Clone)]
pub struct Buffers {
    pub sheet: Vec<u64>,
    pub bytes: Vec<u8>,
}

impl Buffers {
    /// A sheet, and no bytes.
    pub fn of_sheet(sheet: Vec<u64>) -> Buffers {
        Buffers { sheet, bytes: Vec::new() }
    }
}

/// What the model is: it takes n, the call and the buffers, changes these as the call does, and answers.
pub type Model = fn(usize, &Call, &mut Buffers) -> Answer;

/// The answer of an accepted call.
pub fn accepted(value: u64) -> Answer {
    let (number, place) = (0, 0);
    Answer { number, place, value }
}

/// The answer of a refused call, where no record of a plan is to blame.
pub fn refused(number: u64) -> Answer {
    let (place, value) = (0, 0);
    Answer { number, place, value }
}

/// What came of a call: its number, and where an accepted call says 1 or 0, which of them.
#[derive(Clone, Copy, Debug, PartialEq, Eq)]
pub struct Outcome {
    pub call: &'static str,
    pub number: u64,
    pub said: Option<u64>,
}

impl Outcome {
    pub fn of(call: &Call, answer: &Answer) -> Outcome {
        let about = call.about();
        if about.value == Value::YesOrNo && answer.number == 0 {
            saying(about, answer.value)
        } else {
            numbered(about, answer.number)
        }
    }

    /// Every outcome that document 01 allows.
    pub fn allowed() -> Vec<Outcome> {
        ALL.iter().flat_map(allowed).collect()
    }
}

/// Those of one call.
fn allowed(about: &About) -> Vec<Outcome> {
    let mut outcomes = match about.value {
        Value::Number => vec![numbered(about, 0)],
        Value::YesOrNo => vec![saying(about, 0), saying(about, 1)],
    };
    outcomes.extend(about.refusals.iter().map(|&number| numbered(about, number)));
    outcomes
}

fn numbered(about: &About, number: u64) -> Outcome {
    Outcome { call: about.name, number, said: None }
}

fn saying(about: &About, value: u64) -> Outcome {
    Outcome { call: about.name, number: 0, said: Some(value) }
}
