//! The proved library measured against a plain C program of the same interface. Both are checked to agree first, but for `edits`,
//! which prints a checksum.
//!
//! Without an argument: the table of times. `growth`: times as the graphs grow, for a plot. `stack`: how deep each call goes.
//! `edits ours` or `edits plain`, with or without the name of one call: a fixed script of edits, for counting instructions.
//! `LIMIT_RUNS` gives another number of interleaved runs, `LIMIT_CALLS` another number of random calls that are compared.
//! Exit status: 1 if a time is over its limit, 2 for arguments that are none of these, 3 if the programs disagree.

mod agree;
mod blocks;
mod cases;
mod draw;
mod graphs;
mod growth;
mod plain;
mod script;
mod stack;
mod table;
mod timing;
mod work;

use calls::OURS;
use graphs::Graph;
use lugloquat::VERTICES;
use plain::PLAIN;
use std::{env, process::ExitCode};
use work::Work;

const RUNS: usize = 101;
const CALLS: usize = 200_000;
const USAGE: &str = "usage: limit [growth | stack | edits (ours | plain) [CALL]]";

/// An exit status, or one with what there is to say.
type Outcome = Result<u8, (u8, String)>;

fn main() -> ExitCode {
    let arguments: Vec<String> = env::args().skip(1).collect();
    let arguments: Vec<&str> = arguments.iter().map(String::as_str).collect();
    let outcome = match arguments[..] {
        [] => table(),
        ["growth"] => growth(),
        ["stack"] => stack(),
        ["edits", program] => edits(program, None),
        ["edits", program, call] if script::CALLS.contains(&call) => edits(program, Some(call)),
        _ => Err((2, USAGE.into())),
    };
    let status = outcome.unwrap_or_else(|(status, what)| {
        eprintln!("{what}");
        status
    });
    ExitCode::from(status)
}

fn works(graphs: impl IntoIterator<Item = Graph>) -> Vec<Work> {
    graphs.into_iter().map(Work::new).collect()
}

fn table() -> Outcome {
    let runs = number("LIMIT_RUNS", RUNS)?;
    let works = works(graphs::all(VERTICES));
    println!("{}", check(&works)?);
    Ok(if table::print(&works, runs) { 0 } else { 1 })
}

fn growth() -> Outcome {
    let runs = number("LIMIT_RUNS", RUNS)?;
    let works = works(growth::SIZES.into_iter().flat_map(graphs::shuffled));
    eprintln!("{}", check(&works)?);
    growth::print(&works, runs);
    Ok(0)
}

fn stack() -> Outcome {
    let works = works(graphs::all(VERTICES));
    check(&works)?;
    stack::print(&works);
    Ok(0)
}

fn edits(program: &str, counted: Option<&str>) -> Outcome {
    let program = [&OURS, &PLAIN]
        .into_iter()
        .find(|known| known.name == program)
        .ok_or((2, USAGE.into()))?;
    script::print(program, counted);
    Ok(0)
}

/// Checks that the programs agree, and says on how much.
fn check(works: &[Work]) -> Result<String, (u8, String)> {
    let calls = number("LIMIT_CALLS", CALLS)?;
    let disagree = |what: String| (3, format!("the programs disagree: {what}"));
    works.iter().try_for_each(agree::on).map_err(disagree)?;
    let tally = agree::at_random(calls).map_err(disagree)?;
    let made: u64 = tally.values().sum();
    let refused: u64 = tally
        .iter()
        .filter(|((_, number), _)| *number != 0)
        .map(|(_, times)| times)
        .sum();
    Ok(format!(
        "the programs agree on the timed calls and on {made} random ones, {refused} of them refused"
    ))
}

/// A number from the environment, not 0.
fn number(name: &str, default: usize) -> Result<usize, (u8, String)> {
    match env::var(name) {
        Err(env::VarError::NotPresent) => Ok(default),
        Err(error) => Err((2, format!("{name}: {error}"))),
        Ok(text) => match text.parse() {
            Ok(number) if number > 0 => Ok(number),
            _ => Err((2, format!("{name} is {text:?}: a number from 1 up is wanted"))),
        },
    }
}
