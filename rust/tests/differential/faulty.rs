//! What a faulty model is: the right model with one change of what it answers or leaves. The kinds of change, and how they are put
//! into a table.

use crate::call::{Buffers, Call, Model};
use crate::edits::Edit;
use crate::library::{Lent, Library};
use crate::model::{self, Graph};
use crate::questions::Sheet;
use lugloquat::sys::Answer;
use std::slice;

/// In place of a call's name: the fault is one of every call.
pub const ANY: &str = "any call";

/// A faulty model.
pub struct Fault {
    /// The call on which it shows.
    pub call: &'static str,
    /// The name of one of the functions below.
    pub kind: &'static str,
    pub name: &'static str,
    pub model: Model,
    /// The faulty model in the library's place.
    pub library: Library,
    /// Who has to notice the fault where the model and the library have it alike.
    pub known_to: &'static [&'static str],
}

/// A call with what it is lent, and the right answer.
pub struct Right<'a> {
    pub n: usize,
    pub call: &'a Call,
    pub before: &'a Buffers,
    pub answer: Answer,
}

/// A table of faults. Under the name of a call, a fault is a line `KIND: NAME, RULE;`. The kind is one of the functions below, and the
/// rule is its last argument. With `=> WHO` after the rule, the fault is also tried in the model and the library alike, and the one
/// named has to notice it.
macro_rules! faults {
    ($($call:tt { $($kind:ident: $name:literal, $rule:expr $(=> $who:ident)?;)* })*) => {
        &[$($({
            const MODEL: $crate::call::Model = |n, call, lent| {
                $crate::faulty::answer($call, n, call, lent, |right, answer, left| {
                    $crate::faulty::$kind(right, answer, left, $rule)
                })
            };
            $crate::faulty::Fault {
                call: $call,
                kind: stringify!($kind),
                name: $name,
                model: MODEL,
                library: |n, call, lent| unsafe { $crate::faulty::in_place_of_library(MODEL, n, call, lent) },
                known_to: &[$($who)?],
            }
        },)*)*]
    };
}
pub(crate) use faults;

/// The numbers of two neighbouring conditions, in the right order, and whether the second holds where the first does.
pub type Exchange = (u64, u64, fn(&Right) -> bool);

/// The second condition is looked for before the first.
pub fn order(right: &Right, answer: &mut Answer, _: &mut Buffers, (first, second, second_holds): Exchange) {
    if answer.number == first && second_holds(right) {
        answer.number = second;
    }
}

/// The place of a refused record is wrong.
pub fn place(_: &Right, answer: &mut Answer, _: &mut Buffers, rule: fn(u64) -> u64) {
    if answer.place > 0 {
        answer.place = rule(answer.place);
    }
}

/// The value of an accepted call is wrong. The rule is given the buffers that are left, too.
pub fn value(right: &Right, answer: &mut Answer, left: &mut Buffers, rule: fn(&Right, &Buffers) -> u64) {
    if right.is_accepted() {
        answer.value = rule(right, left);
    }
}

/// Some words of the sheet are wrong afterwards.
pub fn words(right: &Right, _: &mut Answer, left: &mut Buffers, rule: fn(&Right, &mut [u64])) {
    rule(right, &mut left.sheet);
}

/// Some of the bytes lent are wrong afterwards.
pub fn bytes(right: &Right, _: &mut Answer, left: &mut Buffers, rule: fn(&Right, &mut [u8])) {
    rule(right, &mut left.bytes);
}

/// Several of these are wrong, or another part of the answer.
pub fn effect(right: &Right, answer: &mut Answer, left: &mut Buffers, rule: fn(&Right, &mut Answer, &mut Buffers)) {
    rule(right, answer, left);
}

/// The kinds of fault that a call can have, besides `effect`.
pub fn kinds_of(call: &Call) -> impl Iterator<Item = &'static str> {
    let kinds = [
        ("order", true),
        ("place", matches!(call, Call::ReadPlan)),
        ("value", true),
        ("words", !call.only_reads_sheet()),
        ("bytes", call.writes_bytes()),
    ];
    kinds.into_iter().filter(|kind| kind.1).map(|kind| kind.0)
}

/// Whether a call is the one named, or any is.
pub fn is_about(named: &str, call: &Call) -> bool {
    named == ANY || named == call.name()
}

/// The right answer and the buffers that it leaves, with a change if the call is the one named.
pub fn answer(
    named: &str,
    n: usize,
    call: &Call,
    lent: &mut Buffers,
    change: impl Fn(&Right, &mut Answer, &mut Buffers),
) -> Answer {
    let before = &lent.clone();
    let mut answer = model::answer(n, call, lent);
    if is_about(named, call) {
        change(&Right { n, call, before, answer }, &mut answer, lent);
    }
    answer
}

/// The model in the library's place.
///
/// # Safety
/// As for [`Library`].
pub unsafe fn in_place_of_library(model: Model, n: usize, call: &Call, lent: Lent) -> Answer {
    let words = slice::from_raw_parts_mut(lent.sheet, lent.words);
    let bytes = slice::from_raw_parts_mut(lent.bytes, lent.length);
    let mut copy = Buffers { sheet: words.to_vec(), bytes: bytes.to_vec() };
    let answer = model(n, call, &mut copy);
    words.copy_from_slice(&copy.sheet);
    bytes.copy_from_slice(&copy.bytes);
    answer
}

impl Fault {
    pub fn full_name(&self) -> String {
        format!("{}, {}: {}", self.call, self.kind, self.name)
    }
}

impl Right<'_> {
    pub fn is_accepted(&self) -> bool {
        self.answer.number == 0
    }

    pub fn is_refused(&self) -> bool {
        !self.is_accepted()
    }

    /// The sheet before the call, of the right length.
    pub fn sheet(&self) -> Sheet<'_> {
        Sheet { n: self.n, words: &self.before.sheet }
    }

    /// The edges before the call, on a sheet of the right length.
    pub fn graph(&self) -> Graph {
        model::graph_of(self.n, &self.before.sheet)
    }

    /// The edit that is made, if the call is one and the vertices and masks that it names are right.
    pub fn edit(&self) -> Option<Edit> {
        match self.call {
            Call::Insert(edges) | Call::Delete(edges) => Edit::of(self.n, edges).ok(),
            _ => None,
        }
    }

    /// Whether a condition of edits holds, on a sheet of the right length.
    pub fn meets(&self, holds: fn(&Edit, &Sheet) -> bool) -> bool {
        self.edit().is_some_and(|edit| holds(&edit, &self.sheet()))
    }

    /// The number of set bits in all rows before the call, on a sheet of the right length.
    pub fn set_bits(&self) -> u64 {
        model::set_bits(self.n, &self.before.sheet)
    }
}
