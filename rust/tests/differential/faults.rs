//! The self-test: the comparison can fail. Each fault, a small change of the model or of the library or of both, has to be noticed.

use crate::call::{Call, Model};
use crate::cases;
use crate::compare::{compare, Case};
use crate::faulty::{is_about, kinds_of, Fault, ANY};
use crate::faulty_models::{OF_ANSWERS, OF_CALLS, OF_DOCUMENT};
use crate::library::{by_c, Lent, Library, Way, BY_C, BY_WRAPPER};
use crate::listing::LIST;
use crate::lists::{self, BOOK, START};
use crate::model;
use crate::plan_cases;
use crate::rng::Rng;
use lugloquat::sys::Answer;
use std::ops::BitXorAssign;

/// A fault that shows in none of so many rounds goes unnoticed.
const LIMIT: u64 = 100_000;

/// What the faults came to.
#[derive(Default)]
pub struct Caught {
    pub faults: usize,
    pub trials: usize,
    /// The most rounds that any trial took, and which trial it was.
    pub most: u64,
    pub slowest: String,
    pub calls: u64,
}

impl Caught {
    /// Enters a trial that has failed, as it has to, in the last of so many rounds.
    fn enter(&mut self, name: &str, rounds: u64) {
        self.trials += 1;
        if rounds > self.most {
            (self.most, self.slowest) = (rounds, name.to_string());
        }
    }
}

/// A comparison that has to fail on some case of the call named, or of any.
struct Trial {
    name: String,
    call: &'static str,
    model: Model,
    way: Way,
}

/// The faults of the model.
fn of_models() -> impl Iterator<Item = &'static Fault> {
    OF_CALLS.iter().chain(OF_DOCUMENT).chain(OF_ANSWERS)
}

/// Runs every trial until it has failed. An error names one that did not.
pub fn check(seed: u64) -> Result<Caught, String> {
    let faults = of_models().count() + LIBRARIES.len();
    let mut caught = Caught { faults, ..Caught::default() };
    check_apart(seed, &mut caught)?;
    let alike = of_models().flat_map(|fault| fault.known_to.iter().map(move |who| (fault, who)));
    for (fault, who) in alike {
        check_alike(seed, fault, who, &mut caught)?;
    }
    Ok(caught)
}

/// The error of a trial that does not fail.
fn unnoticed(name: &str) -> String {
    format!("a fault went unnoticed in {LIMIT} rounds: {name}")
}

/// The faults that the model or the library has alone: runs the same rounds on every trial until each has failed.
fn check_apart(seed: u64, caught: &mut Caught) -> Result<(), String> {
    let mut open = trials();
    for index in 0..LIMIT {
        if open.is_empty() {
            break;
        }
        run_round(seed, index, &mut open, caught)?;
    }
    open.first().map_or(Ok(()), |trial| Err(unnoticed(&trial.name)))
}

/// Every fault of the model against both ways into the library, and the right model against every faulty library.
fn trials() -> Vec<Trial> {
    let of_model = |fault: &'static Fault, way: Way| Trial {
        name: format!("{}, by {}", fault.full_name(), way.name),
        call: fault.call,
        model: fault.model,
        way,
    };
    let of_library = |&(fault, library): &(&str, Library)| Trial {
        name: format!("a library that {fault}"),
        call: ANY,
        model: model::answer,
        way: Way { library, ..BY_C },
    };
    let of_models = of_models().flat_map(|fault| [of_model(fault, BY_C), of_model(fault, BY_WRAPPER)]);
    of_models.chain(LIBRARIES.iter().map(of_library)).collect()
}

/// Runs the cases of a round on the trials that are open, and closes those that fail.
fn run_round(seed: u64, index: u64, open: &mut Vec<Trial>, caught: &mut Caught) -> Result<(), String> {
    let mut rng = Rng::of_round(seed, index);
    for case in cases::make(&mut rng) {
        check_kinds(&case.call)?;
        open.retain(|trial| !fails(trial, &case, index, caught, &mut rng));
    }
    Ok(())
}

/// Whether the trial is about this case and fails on it.
fn fails(trial: &Trial, case: &Case, index: u64, caught: &mut Caught, rng: &mut Rng) -> bool {
    if !is_about(trial.call, &case.call) {
        return false;
    }
    caught.calls += 1;
    let noticed = compare(case, trial.model, &[trial.way], rng).is_err();
    if noticed {
        caught.enter(&trial.name, index + 1);
    }
    noticed
}

/// Checks that the table has a fault of each kind that the call can have.
fn check_kinds(call: &Call) -> Result<(), String> {
    let has = |kind: &str| OF_CALLS.iter().any(|fault| (fault.call, fault.kind) == (call.name(), kind));
    match kinds_of(call).find(|kind| !has(kind)) {
        Some(kind) => Err(format!("{} has no fault of this kind: {kind}", call.name())),
        None => Ok(()),
    }
}

/// A fault that the model and the library have alike: runs cases until one fails that is also held to what the one named says.
fn check_alike(seed: u64, fault: &Fault, who: &str, caught: &mut Caught) -> Result<(), String> {
    let name = format!("{}, in the model and the library alike, against {who}", fault.full_name());
    let way = Way { library: fault.library, ..BY_C };
    let noticed = |case: &Case, rng: &mut Rng| {
        let by = case.known.as_ref().map(|known| known.by);
        by == Some(who) && compare(case, fault.model, &[way], rng).is_err()
    };
    let fails = |index: &u64| {
        let mut rng = Rng::of_round(seed, *index);
        let cases = cases_known_to(who, &mut rng, fault.model);
        cases.iter().any(|case| noticed(case, &mut rng))
    };
    let index = (0..LIMIT).find(fails).ok_or_else(|| unnoticed(&name))?;
    caught.enter(&name, index + 1);
    Ok(())
}

/// Cases among which are some that the one named judges without the model.
fn cases_known_to(who: &str, rng: &mut Rng, model: Model) -> Vec<Case> {
    match who {
        BOOK | START => lists::make(rng, model),
        LIST => vec![cases::reaches_without(rng), cases::unrank(rng), cases::rank(rng)],
        _ => plan_cases::make(rng, model),
    }
}

/// Each library makes the right call and besides does what its name says. What stands around a buffer are guards, in the same
/// allocation as the buffer, so that writing them is allowed here.
const LIBRARIES: &[(&str, Library)] = &[
    ("writes the word before the sheet", |n, call, lent| unsafe {
        changing(n, call, lent, Some(lent.sheet.wrapping_sub(1)))
    }),
    ("writes the word after the sheet", |n, call, lent| unsafe {
        changing(n, call, lent, Some(lent.sheet.wrapping_add(lent.words)))
    }),
    ("writes the last word when it should only read", |n, call, lent| unsafe {
        let last = lent.words.checked_sub(1).filter(|_| call.only_reads_sheet());
        changing(n, call, lent, last.map(|last| lent.sheet.wrapping_add(last)))
    }),
    ("writes the byte before the bytes lent", |n, call, lent| unsafe {
        changing(n, call, lent, Some(lent.bytes.wrapping_sub(1)))
    }),
    ("writes the byte after the bytes lent", |n, call, lent| unsafe {
        changing(n, call, lent, Some(lent.bytes.wrapping_add(lent.length)))
    }),
    ("writes the last byte when it should only read", |n, call, lent| unsafe {
        let last = lent.length.checked_sub(1).filter(|_| call.only_reads_bytes());
        changing(n, call, lent, last.map(|last| lent.bytes.wrapping_add(last)))
    }),
];

/// Makes the right call, then changes a word or a byte, if one is named.
///
/// # Safety
/// As for [`Library`]; the word or byte named may be changed.
unsafe fn changing<T>(n: usize, call: &Call, lent: Lent, place: Option<*mut T>) -> Answer
where
    T: BitXorAssign + From<u8>,
{
    let answer = by_c(n, call, lent);
    if let Some(place) = place {
        *place ^= T::from(1);
    }
    answer
}
