//! Programs behind the interface, each as its functions: how a call is made by one, and the proved library. All of it comes from the
//! table of calls.

use crate::{
    call::{About, Access, Call, Edges, Value},
    lent::{Lent, Slices},
};
use lugloquat::{
    sys::{self, Answer},
    Refusal,
};

/// What `mut` and `const` mean in the table.
macro_rules! access {
    (mut) => {
        Access::Write
    };
    (const) => {
        Access::Read
    };
}

/// Makes what has a part for each call out of the rows of the table.
macro_rules! define {
    ($(
        $call:pat => $name:ident, $function:ident(
            $sheet:tt $(, $argument:ident: $type:ty)* $(; $access:tt $bytes:ident $length:ident)*
        ), $value:ident, [$($refusal:literal),*];
    )*) => {
        /// A program behind the interface. Its functions answer for every n, all words and all bytes, as the header says.
        pub struct Program {
            pub name: &'static str,
            $(pub $name: unsafe extern "C" fn(usize, *$sheet u64, usize $(, $type)* $(, *$access u8, usize)*) -> Answer,)*
        }

        /// The proved library.
        pub static OURS: Program = Program { name: "ours", $($name: sys::$function,)* };

        /// All calls, in the order of the table.
        pub static ALL: &[About] = &[$(About {
            name: stringify!($name),
            sheet: access!($sheet),
            bytes: &[$(access!($access)),*],
            value: Value::$value,
            refusals: &[$($refusal),*],
        }),*];

        impl Program {
            /// Makes the call. If the compiler knows which call it is, this is the call of its function and nothing else.
            ///
            /// # Safety
            /// The words and the bytes stand where `lent` says, and nobody else uses them meanwhile.
            #[inline(always)]
            pub unsafe fn make_by_pointers(&self, n: usize, call: &Call, lent: Lent) -> Answer {
                match *call {
                    $($call => (self.$name)(n, lent.sheet, lent.words $(, $argument)* $(, lent.$bytes, lent.$length)*),)*
                }
            }

            /// Where the function of a call begins.
            #[allow(unused_variables)]
            pub fn address(&self, call: &Call) -> *const () {
                match *call {
                    $($call => self.$name as _,)*
                }
            }
        }

        impl Call {
            #[allow(unused_variables)]
            pub fn name(&self) -> &'static str {
                match *self {
                    $($call => stringify!($name),)*
                }
            }

            /// All arguments of its function, as words.
            pub fn arguments(&self, n: usize, lent: Lent) -> Vec<u64> {
                let sheet = [n as u64, lent.sheet as u64, lent.words as u64];
                let others = match *self {
                    $($call => vec![$($argument as u64,)* $(lent.$bytes as u64, lent.$length as u64,)*],)*
                };
                [&sheet, &others[..]].concat()
            }
        }

        /// Makes the call by the safe wrapper of the proved library.
        pub fn by_wrapper(n: usize, call: &Call, lent: Slices) -> Result<u64, Refusal> {
            match *call {
                $($call => lugloquat::$name(n, lent.sheet $(, $argument)* $(, lent.$bytes)*),)*
            }
        }
    };
}

crate::each_call!(define);

impl Program {
    /// Makes the call with slices.
    #[inline(always)]
    pub fn make(&self, n: usize, call: &Call, lent: Slices) -> Answer {
        // SAFETY: the words and the bytes are those of the slices, lent for the call alone.
        unsafe { self.make_by_pointers(n, call, lent.lent()) }
    }
}
