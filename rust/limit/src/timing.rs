//! How things are timed: contenders take turns, each with words and bytes of its own, and the median of many runs counts.
//!
//! Where the stack lies against the words, modulo a page, can make a call take twice as long, and it lies elsewhere each time a
//! program is started. So the runs go round many places of the stack, each run from the same one for all contenders.

use std::{
    arch::global_asm,
    ffi::c_void,
    ops::{Deref, DerefMut},
    ptr,
    time::{Duration, Instant},
};

/// Runs that are not counted, before those that are.
const WARM_UP: usize = 5;
/// A contender repeats its block until a run takes about so long; then reading the clock costs next to nothing.
const RUN: Duration = Duration::from_micros(150);

/// The places of the stack, a cache line from each other: they cover a page but for three lines. Their number is prime, so that
/// no contender always has the first turn at the same place.
const PLACES: usize = 61;
const LINE: usize = 64;

// limit_lower(function, its argument, bytes): calls the function with the stack that many bytes lower, a multiple of 16.
global_asm!(
    ".globl limit_lower",
    "limit_lower:",
    "push rbp",
    "mov rbp, rsp",
    "sub rsp, rdx",
    "mov rax, rdi",
    "mov rdi, rsi",
    "call rax",
    "mov rsp, rbp",
    "pop rbp",
    "ret",
);

extern "C" {
    fn limit_lower(function: extern "C" fn(*mut c_void), argument: *mut c_void, bytes: usize);
}

/// Words that begin a page, so that those of all contenders lie alike.
#[repr(C, align(4096))]
struct WordPages([u64; 9 * 512]);

/// Bytes that begin a page.
#[repr(C, align(4096))]
struct BytePages([u8; 9 * 4096]);

/// So many words, at the beginning of a page of their own.
pub struct Words(Box<WordPages>, usize);

/// So many bytes, at the beginning of a page of their own.
pub struct Bytes(Box<BytePages>, usize);

impl Words {
    pub fn new(words: &[u64]) -> Words {
        let mut pages = Box::new(WordPages([0; 9 * 512]));
        pages.0[..words.len()].copy_from_slice(words);
        Words(pages, words.len())
    }
}

impl Bytes {
    pub fn new(length: usize) -> Bytes {
        assert!(length <= 9 * 4096);
        Bytes(Box::new(BytePages([0; 9 * 4096])), length)
    }
}

impl Deref for Words {
    type Target = [u64];
    fn deref(&self) -> &[u64] {
        &self.0 .0[..self.1]
    }
}

impl DerefMut for Words {
    fn deref_mut(&mut self) -> &mut [u64] {
        &mut self.0 .0[..self.1]
    }
}

impl Deref for Bytes {
    type Target = [u8];
    fn deref(&self) -> &[u8] {
        &self.0 .0[..self.1]
    }
}

impl DerefMut for Bytes {
    fn deref_mut(&mut self) -> &mut [u8] {
        &mut self.0 .0[..self.1]
    }
}

/// What was spent on a block: it has one or two timed parts, each of so many calls.
#[derive(Default)]
pub struct Spent {
    pub parts: [Duration; 2],
    pub calls: usize,
}

impl Spent {
    /// On a block of one part, that began at the instant.
    pub fn since(start: Instant, calls: usize) -> Spent {
        Spent { parts: [start.elapsed(), Duration::ZERO], calls }
    }
}

/// Someone who runs a block of work, repeated so many times, when it is its turn.
pub struct Contender<'a> {
    block: Box<dyn FnMut(usize) -> Spent + 'a>,
    rounds: usize,
    /// Nanoseconds a call, for each part, of each run so far.
    runs: Vec<[f64; 2]>,
}

impl<'a> Contender<'a> {
    pub fn new(block: impl FnMut(usize) -> Spent + 'a) -> Contender<'a> {
        Contender { block: Box::new(block), rounds: 1, runs: Vec::new() }
    }

    /// Sets how often the block is repeated in a run, by the shortest of five trials.
    fn settle(&mut self) {
        let shortest = (0..5)
            .map(|_| (self.block)(1).parts.iter().sum::<Duration>().as_nanos())
            .min();
        self.rounds = (RUN.as_nanos() / shortest.unwrap_or(1).max(1)).max(1) as usize;
    }

    fn run(&mut self) {
        let spent = (self.block)(self.rounds);
        self.runs
            .push(spent.parts.map(|part| part.as_nanos() as f64 / spent.calls as f64));
    }

    /// Runs at a place of the stack.
    fn run_at(&mut self, place: usize) {
        extern "C" fn run(contender: *mut c_void) {
            // SAFETY: it is the contender below, lent for this call alone.
            unsafe { &mut *contender.cast::<Contender>() }.run();
        }
        // SAFETY: the function takes this argument and does not unwind, and the stack is lowered by less than a page.
        unsafe { limit_lower(run, ptr::from_mut(self).cast(), place % PLACES * LINE) };
    }

    fn median(&self, part: usize) -> f64 {
        let mut times: Vec<f64> = self.runs.iter().map(|run| run[part]).collect();
        times.sort_by(f64::total_cmp);
        times[times.len() / 2]
    }
}

/// Lets the contenders take turns, each run beginning with the next one, and gives for each the median nanoseconds a call of its
/// parts. The first two, the programs, repeat their blocks equally often.
pub fn take_turns(contenders: &mut [Contender], runs: usize) -> Vec<[f64; 2]> {
    contenders.iter_mut().for_each(Contender::settle);
    let rounds = contenders[0].rounds.max(contenders[1].rounds);
    contenders[..2].iter_mut().for_each(|program| program.rounds = rounds);
    for run in 0..WARM_UP + runs {
        if run == WARM_UP {
            contenders.iter_mut().for_each(|contender| contender.runs.clear());
        }
        for turn in 0..contenders.len() {
            let next = (run + turn) % contenders.len();
            contenders[next].run_at(run);
        }
    }
    contenders
        .iter()
        .map(|contender| [contender.median(0), contender.median(1)])
        .collect()
}
