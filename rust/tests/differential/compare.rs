//! The comparison of one case: the answer and buffers wanted against those of the library, with guards around what is lent.

use crate::call::{Buffers, Call, Model};
use crate::library::{Lent, Way};
use crate::rng::Rng;
use lugloquat::sys::Answer;
use std::fmt;

/// A call with its n and its buffers, and what kind of sheet or plan these hold.
pub struct Case {
    pub n: usize,
    pub call: Call,
    pub lent: Buffers,
    pub kind: &'static str,
    /// What is known of it without the model, if anything is.
    pub known: Option<Wanted>,
}

/// What the library has to answer and to leave, and who says so.
pub struct Wanted {
    pub by: &'static str,
    pub answer: Answer,
    pub after: Buffers,
}

/// What the model and the library agree on, and how many library calls were made.
pub struct Compared {
    pub answer: Answer,
    pub after: Buffers,
    pub calls: u64,
}

/// Where a buffer first differs: the place counts from the first word or byte lent, so that one before it is negative.
struct Difference {
    of: &'static str,
    place: isize,
    wanted: u64,
    library: u64,
}

/// The library does not answer or leave what is wanted.
pub struct Mismatch {
    way: &'static str,
    by: &'static str,
    wanted: Answer,
    library: Answer,
    difference: Option<Difference>,
}

/// A buffer between guards, in one allocation.
#[derive(Clone)]
struct Guarded<T> {
    all: Vec<T>,
    start: usize,
    length: usize,
}

impl<T: Copy + Into<u64> + PartialEq> Guarded<T> {
    /// The buffer between 4 to 11 guards on each side, which are drawn.
    fn new(lent: &[T], draw: fn(&mut Rng, usize) -> Vec<T>, rng: &mut Rng) -> Guarded<T> {
        let (start, behind) = (4 + rng.below(8), 4 + rng.below(8));
        let mut all = draw(rng, start);
        all.extend_from_slice(lent);
        all.extend(draw(rng, behind));
        let length = lent.len();
        Guarded { all, start, length }
    }

    /// The same guards around another buffer of the same length.
    fn around(&self, lent: &[T]) -> Guarded<T> {
        let mut other = self.clone();
        other.all[self.start..self.start + self.length].copy_from_slice(lent);
        other
    }

    /// The first one lent. What stands around it belongs to the same allocation.
    fn pointer(&mut self) -> *mut T {
        self.all.as_mut_ptr().wrapping_add(self.start)
    }

    fn difference(&self, of: &'static str, library: &Guarded<T>) -> Option<Difference> {
        let at = (0..self.all.len()).find(|&at| self.all[at] != library.all[at])?;
        Some(Difference {
            of,
            place: at as isize - self.start as isize,
            wanted: self.all[at].into(),
            library: library.all[at].into(),
        })
    }
}

/// The buffers of a case between guards.
struct AllGuarded {
    sheet: Guarded<u64>,
    bytes: Guarded<u8>,
}

impl AllGuarded {
    fn new(lent: &Buffers, rng: &mut Rng) -> AllGuarded {
        AllGuarded {
            sheet: Guarded::new(&lent.sheet, Rng::words, rng),
            bytes: Guarded::new(&lent.bytes, Rng::bytes, rng),
        }
    }

    fn around(&self, lent: &Buffers) -> AllGuarded {
        AllGuarded {
            sheet: self.sheet.around(&lent.sheet),
            bytes: self.bytes.around(&lent.bytes),
        }
    }

    fn lent(&mut self) -> Lent {
        Lent {
            sheet: self.sheet.pointer(),
            words: self.sheet.length,
            bytes: self.bytes.pointer(),
            length: self.bytes.length,
        }
    }

    fn difference(&self, library: &AllGuarded) -> Option<Difference> {
        let of_sheet = self.sheet.difference("word of the sheet", &library.sheet);
        of_sheet.or_else(|| self.bytes.difference("byte lent", &library.bytes))
    }
}

/// Runs the case on the model once and on the library by each way, and compares the answers, every word and byte lent, and every
/// guard: with the model's, and with those known without it.
pub fn compare(case: &Case, model: Model, ways: &[Way], rng: &mut Rng) -> Result<Compared, Box<Mismatch>> {
    let mut after = case.lent.clone();
    let answer = model(case.n, &case.call, &mut after);
    let by = "the model";
    let modelled = Wanted { by, answer, after };
    let mut calls = 0;
    for way in ways {
        if !way.only_with_empty || case.lends_empty() {
            compare_by(way, case, &modelled, rng)?;
            calls += 1;
        }
    }
    let after = modelled.after;
    Ok(Compared { answer, after, calls })
}

fn compare_by(way: &Way, case: &Case, modelled: &Wanted, rng: &mut Rng) -> Result<(), Box<Mismatch>> {
    let mut buffers = AllGuarded::new(&case.lent, rng);
    let all_wanted = case.known.iter().chain([modelled]);
    let all_wanted: Vec<_> = all_wanted.map(|wanted| (wanted, buffers.around(&wanted.after))).collect();
    // SAFETY: each buffer lent stands in an allocation of its own, which outlives the call and which nobody else uses.
    let library = unsafe { (way.library)(case.n, &case.call, buffers.lent()) };
    for (wanted, buffers_wanted) in all_wanted {
        let difference = buffers_wanted.difference(&buffers);
        if wanted.answer != library || difference.is_some() {
            return Err(Box::new(Mismatch {
                way: way.name,
                by: wanted.by,
                wanted: wanted.answer,
                library,
                difference,
            }));
        }
    }
    Ok(())
}

impl Case {
    /// Whether a buffer that the call takes has length 0.
    fn lends_empty(&self) -> bool {
        self.lent.sheet.is_empty() || (self.call.takes_bytes() && self.lent.bytes.is_empty())
    }
}

impl fmt::Display for Case {
    fn fmt(&self, f: &mut fmt::Formatter<'_>) -> fmt::Result {
        let (call, n, words, bytes) = (&self.call, self.n, self.lent.sheet.len(), &self.lent.bytes);
        write!(f, "{call:?}, n {n}, {words} words, kind: {}", self.kind)?;
        match self.call {
            Call::ReadPlan | Call::WritePlan => write!(f, ", plan: {} bytes {}", bytes.len(), bytes.escape_ascii()),
            Call::Unrank { .. } | Call::Rank => write!(f, ", path: {} bytes {bytes:?}", bytes.len()),
            _ => Ok(()),
        }
    }
}

impl fmt::Display for Mismatch {
    fn fmt(&self, f: &mut fmt::Formatter<'_>) -> fmt::Result {
        let answer = |a: &Answer| format!("number {}, place {}, value {}", a.number, a.place, a.value);
        writeln!(f, "  by {}, against {}", self.way, self.by)?;
        writeln!(f, "  wanted:  {}", answer(&self.wanted))?;
        writeln!(f, "  library: {}", answer(&self.library))?;
        match &self.difference {
            None => write!(f, "  every word, byte and guard is the same"),
            Some(d) => write!(
                f,
                "  first difference: {} {}, wanted {:#x}, library {:#x}",
                d.of, d.place, d.wanted, d.library
            ),
        }
    }
}
