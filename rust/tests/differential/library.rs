//! The library as the comparison sees it: through the C declarations and through the safe wrapper.

use crate::call::Call;
pub use calls::Lent;
use calls::OURS;
use lugloquat::sys::Answer;
use std::ptr;

/// A function that makes a call. Whoever calls it vouches that the words and the bytes stand where `Lent` says.
pub type Library = unsafe fn(usize, &Call, Lent) -> Answer;

/// One of the ways into the library.
#[derive(Clone, Copy)]
pub struct Way {
    pub name: &'static str,
    pub library: Library,
    /// Whether it is only for calls that are lent a buffer of length 0.
    pub only_with_empty: bool,
}

pub const BY_C: Way = Way {
    name: "the C declarations",
    library: by_c,
    only_with_empty: false,
};

pub const BY_WRAPPER: Way = Way {
    name: "the safe wrapper",
    library: by_wrapper,
    only_with_empty: false,
};

pub const BY_C_WITH_NULL: Way = Way {
    name: "the C declarations, NULL for an empty buffer",
    library: by_c_with_null,
    only_with_empty: true,
};

pub const WAYS: &[Way] = &[BY_C, BY_WRAPPER, BY_C_WITH_NULL];

/// # Safety
/// As for [`Library`].
pub unsafe fn by_c(n: usize, call: &Call, lent: Lent) -> Answer {
    OURS.make_by_pointers(n, call, lent)
}

unsafe fn by_c_with_null(n: usize, call: &Call, lent: Lent) -> Answer {
    let sheet = if lent.words == 0 { ptr::null_mut() } else { lent.sheet };
    let bytes = if lent.length == 0 { ptr::null_mut() } else { lent.bytes };
    by_c(n, call, Lent { sheet, bytes, ..lent })
}

/// The wrapper's result, written as an answer: it shows no place when accepted and no value when refused.
unsafe fn by_wrapper(n: usize, call: &Call, lent: Lent) -> Answer {
    let (number, place, value) = match calls::by_wrapper(n, call, lent.slices()) {
        Ok(value) => (0, 0, value),
        Err(refusal) => (refusal.reason.number(), refusal.place, 0),
    };
    Answer { number, place, value }
}
