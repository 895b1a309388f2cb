//! The plain C program of `plain/`, and the two functions of `plain/scratch.h` for slices.

use calls::Program;

/// Declares the functions of `plain/plain.h`, which differ from the library's in the names alone, and makes a program of them.
macro_rules! declare {
    ($(
        $call:pat => $name:ident, $ours:ident($sheet:tt $(, $argument:ident: $type:ty)* $(; $access:tt $bytes:ident $length:ident)*),
        $value:ident, $refusals:tt;
    )*) => {
        mod c {
            use lugloquat::sys::Answer;

            extern "C" {
                $(
                    #[link_name = concat!("plain_", stringify!($name))]
                    pub fn $name(
                        n: usize, sheet: *$sheet u64, words: usize
                        $(, $argument: $type)* $(, $bytes: *$access u8, $length: usize)*
                    ) -> Answer;
                )*
            }
        }

        /// The plain C program.
        pub static PLAIN: Program = Program { name: "plain", $($name: c::$name,)* };
    };
}

calls::each_call!(declare);

extern "C" {
    fn scratch_count(n: usize, sheet: *mut u64);
    fn floor_pass(n: usize, sheet: *const u64) -> u64;
}

/// Works all counts of a sheet of n vertices out from its rows, which have no bit at n or above and no cycle.
pub fn count_from_scratch(n: usize, sheet: &mut [u64]) {
    assert!(is_sheet(n, sheet));
    // SAFETY: the sheet has its words.
    unsafe { scratch_count(n, sheet.as_mut_ptr()) }
}

/// Reads and adds up the counts of a sheet of n vertices.
pub fn add_counts(n: usize, sheet: &[u64]) -> u64 {
    assert!(is_sheet(n, sheet));
    // SAFETY: the sheet has its words.
    unsafe { floor_pass(n, sheet.as_ptr()) }
}

/// Whether n is right, and these are as many words as a sheet of n vertices has.
fn is_sheet(n: usize, sheet: &[u64]) -> bool {
    (1..=lugloquat::VERTICES).contains(&n) && sheet.len() == lugloquat::word_count(n)
}
