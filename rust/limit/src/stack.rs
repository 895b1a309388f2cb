//! How deep each call goes into the stack: it is made on a stack of its own, filled beforehand, and the lowest changed byte is
//! looked for.
//!
//! A depth is counted from the stack pointer just before the call instruction: the return address counts, and arguments that are
//! passed on the stack do not. A byte counts once it is written. Two fillings are tried, since a call may write what is there.

use crate::{
    cases::{self, Case},
    plain::PLAIN,
    work::Work,
};
use calls::{rng::Rng, Call, Program, Slices, OURS};
use lugloquat::sys::Answer;
use std::{arch::global_asm, collections::BTreeMap};

/// The bytes of the stack.
const STACK: usize = 256 * 1024;
const FILLINGS: [u8; 2] = [0x55, 0xAA];
/// The words of the arguments: five go in registers, and four on the stack, always, so that it stays aligned.
const ARGUMENTS: usize = 9;
/// What lies on the stack before the call instruction.
const PUSHED: usize = 4 * 8;
/// The random sheets tried, and the calls on each.
const CASES: u64 = 600;
const CALLS_A_CASE: usize = 8;

// limit_on_stack(function, top of the stack, argument words, where the answer goes): the answer's address is the hidden first
// argument.
global_asm!(
    ".globl limit_on_stack",
    "limit_on_stack:",
    "push rbp",
    "mov rbp, rsp",
    "mov rsp, rsi",
    "mov rax, rdi",
    "mov r10, rdx",
    "mov rdi, rcx",
    "push qword ptr [r10 + 64]",
    "push qword ptr [r10 + 56]",
    "push qword ptr [r10 + 48]",
    "push qword ptr [r10 + 40]",
    "mov r9, [r10 + 32]",
    "mov r8, [r10 + 24]",
    "mov rcx, [r10 + 16]",
    "mov rdx, [r10 + 8]",
    "mov rsi, [r10]",
    "call rax",
    "mov rsp, rbp",
    "pop rbp",
    "ret",
);

extern "C" {
    fn limit_on_stack(function: *const (), top: *mut u8, words: *const u64, answer: *mut Answer);
}

#[repr(C, align(4096))]
struct Stack([u8; STACK]);

/// The argument words of a call.
fn words(call: Call, n: usize, sheet: &mut [u64], bytes: &mut [u8]) -> [u64; ARGUMENTS] {
    let arguments = call.arguments(n, Slices { sheet, bytes }.lent());
    let mut words = [0; ARGUMENTS];
    words[..arguments.len()].copy_from_slice(&arguments);
    words
}

/// Makes the call on the stack, from the same words and bytes for each filling, and gives its answer and how deep it went.
fn depth(program: &Program, stack: &mut Stack, call: Call, n: usize, sheet: &mut [u64], bytes: &mut [u8]) -> (Answer, usize) {
    let before = (sheet.to_vec(), bytes.to_vec());
    let mut answer = Answer { number: 0, place: 0, value: 0 };
    let mut deepest = 0;
    for filling in FILLINGS {
        sheet.copy_from_slice(&before.0);
        bytes.copy_from_slice(&before.1);
        stack.0.fill(filling);
        let words = words(call, n, sheet, bytes);
        // SAFETY: the function is that of the call, and these are its arguments; words and bytes are lent for the call alone; the
        // stack is lent too, its top is aligned, and that it was large enough is checked.
        unsafe {
            limit_on_stack(
                program.address(&call),
                stack.0.as_mut_ptr_range().end,
                words.as_ptr(),
                &mut answer,
            )
        };
        let lowest = stack
            .0
            .iter()
            .position(|&byte| byte != filling)
            .expect("the return address is there");
        assert!(
            lowest >= 4096,
            "{call:?} by {} may need a larger stack than {STACK} bytes",
            program.name
        );
        deepest = deepest.max(STACK - PUSHED - lowest);
    }
    (answer, deepest)
}

/// The greatest depth of each call, by ours and by plain C, and its numbers of accepted and refused inputs.
type Depths = BTreeMap<&'static str, ([usize; 2], [usize; 2])>;

/// Measures one input by both programs.
fn enter(depths: &mut Depths, stack: &mut Stack, call: Call, n: usize, sheet: &mut [u64], bytes: &mut [u8]) {
    let (mut other, mut other_bytes) = (sheet.to_vec(), bytes.to_vec());
    let (answer, ours) = depth(&OURS, stack, call, n, sheet, bytes);
    let (plain_answer, plain) = depth(&PLAIN, stack, call, n, &mut other, &mut other_bytes);
    assert!(
        answer == plain_answer && sheet == other && bytes == other_bytes,
        "{call:?} is answered alike"
    );
    let (deepest, inputs) = depths.entry(call.name()).or_default();
    *deepest = [deepest[0].max(ours), deepest[1].max(plain)];
    inputs[usize::from(answer.number != 0)] += 1;
}

/// Prints a line for each call: the greatest depth over the timed calls, plans refused at the last record, and random calls.
pub fn print(works: &[Work]) {
    let mut stack = Box::new(Stack([0; STACK]));
    let mut depths = Depths::new();
    for work in works {
        let mut sheet = work.sheet.clone();
        for (call, mut bytes) in work.calls().into_iter().chain(late_refusals(work)) {
            enter(&mut depths, &mut stack, call, work.n(), &mut sheet, &mut bytes);
        }
    }
    for seed in 0..CASES {
        let mut rng = Rng::new(seed);
        let case = Case::new(&mut rng);
        let mut sheet = case.sheet.clone();
        for _ in 0..CALLS_A_CASE {
            let (call, mut bytes) = cases::call(&mut rng, &case, &sheet);
            enter(&mut depths, &mut stack, call, case.n, &mut sheet, &mut bytes);
        }
    }
    println!("stack bytes, from the stack pointer before the call instruction down to the lowest byte written");
    println!(
        "{:<16} {:>8} {:>8} {:>9} {:>8}",
        "call", "ours", "plain C", "accepted", "refused"
    );
    for (call, ([ours, plain], [accepted, refused])) in depths {
        println!("{call:<16} {ours:>8} {plain:>8} {accepted:>9} {refused:>8}");
    }
}

/// The graph's plan read onto the empty sheet, but refused at the last record: an edge that is there, and a malformed record.
fn late_refusals(work: &Work) -> [(Call, Vec<u8>); 4] {
    let again = [&work.plan[..], &work.plan[..8]].concat();
    let malformed = [&work.plan[..], b"L 00-01\n"].concat();
    [
        (Call::Empty, vec![]),
        (Call::ReadPlan, again),
        (Call::ReadPlan, malformed),
        (Call::ReadPlan, work.plan.clone()),
    ]
}
