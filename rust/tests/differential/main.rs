//! The library against a plain model of document 01, by random calls on random sheets, by lists of edits and by plans.
//!
//! `LUGLOQUAT_SEED` gives another seed, `LUGLOQUAT_CALLS` another number of library calls, both in decimal. The exit status is
//! not 0 if the library and the model disagree anywhere, if a fault put in on purpose goes unnoticed, or if too little came up.
//!
//! A further call is a variant and a row of the table in `calls/src/call.rs`, a function of the model, a generator of cases, and a
//! fault of each kind that it can have.

mod agreement;
mod arguments;
mod asked;
mod book;
mod call;
mod cases;
mod compare;
mod damaged;
mod edits;
mod faults;
mod faulty;
mod faulty_models;
mod fixed;
mod fixed_plans;
mod fixed_questions;
mod graphs;
mod library;
mod listing;
mod lists;
mod model;
mod plan_cases;
mod plan_tally;
mod planned;
mod plans;
mod questions;
mod recurrence;
mod sheets;
mod small_plans;
mod tally;

use calls::rng::{self, Rng};
use std::{env, process::ExitCode, time::Instant};
use tally::Tally;

const SEED: u64 = 20_260_801;
const CALLS: u64 = 1_000_000;
const _: () = assert!(CALLS >= 200_000, "a run of the default length makes at least so many calls");

fn main() -> ExitCode {
    match run() {
        Ok(()) => ExitCode::SUCCESS,
        Err(message) => {
            println!("FAILED: {message}");
            ExitCode::FAILURE
        }
    }
}

fn run() -> Result<(), String> {
    let seed = number("LUGLOQUAT_SEED", SEED)?;
    let calls = number("LUGLOQUAT_CALLS", CALLS)?;
    println!("seed {seed}, at least {calls} calls");
    check_by_hand(seed)?;
    check_faults(seed)?;
    let start = Instant::now();
    let tally = check_at_random(seed, calls)?;
    let seconds = start.elapsed().as_secs_f64();
    println!(
        "random: {} rounds, {} calls, of them {} edits, compared in {seconds:.1} seconds",
        tally.rounds, tally.calls, tally.edits
    );
    tally.print();
    if calls >= CALLS {
        tally.check()?;
    } else {
        println!("too few calls to judge whether enough came up");
    }
    Ok(())
}

/// A number from the environment.
fn number(name: &str, default: u64) -> Result<u64, String> {
    match env::var(name) {
        Err(env::VarError::NotPresent) => Ok(default),
        Err(error) => Err(format!("{name}: {error}")),
        Ok(text) => text.parse().map_err(|error| format!("{name} is {text:?}: {error}")),
    }
}

fn check_by_hand(seed: u64) -> Result<(), String> {
    let (graphs, acyclic) = agreement::check(seed)?;
    println!("model: its two ways agree on {graphs} graphs, {acyclic} of them acyclic");
    let fixed = fixed::check(seed)?;
    println!("fixed: {} cases, {} calls compared", fixed.cases, fixed.calls);
    Ok(())
}

fn check_faults(seed: u64) -> Result<(), String> {
    let start = Instant::now();
    let caught = faults::check(!seed)?;
    println!(
        "self-test: all {} faults caught, in {} trials of at most {} rounds each; {} calls in {:.1} seconds",
        caught.faults,
        caught.trials,
        caught.most,
        caught.calls,
        start.elapsed().as_secs_f64()
    );
    println!("self-test: the last to be caught was: {}", caught.slowest);
    Ok(())
}

/// Compares random cases until so many library calls have been made.
fn check_at_random(seed: u64, calls: u64) -> Result<Tally, String> {
    let mut tally = Tally::new();
    while tally.calls < calls {
        let mut rng = Rng::of_round(seed, tally.rounds);
        for (place, case) in cases::make(&mut rng).iter().enumerate() {
            let at = |what: String| format!("seed {seed}, round {}, call {place}: {case}\n{what}", tally.rounds);
            let compared =
                compare::compare(case, model::answer, library::WAYS, &mut rng).map_err(|found| at(found.to_string()))?;
            tally.enter(case, &compared)?;
        }
        tally.rounds += 1;
    }
    Ok(tally)
}
