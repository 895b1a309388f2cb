//! Why a call was refused.

use core::{error::Error, fmt};

/// A refusal. The refused call has changed no word and no byte of any buffer.
#[derive(Clone, Copy, Debug, PartialEq, Eq, Hash)]
pub struct Refusal {
    pub reason: Reason,
    /// The refused record of a plan, from 1 up; 0 where no record is to blame.
    pub place: u64,
}

impl fmt::Display for Refusal {
    fn fmt(&self, f: &mut fmt::Formatter<'_>) -> fmt::Result {
        match self.place {
            0 => write!(f, "refused {}: {}", self.reason.number(), self.reason),
            place => write!(f, "record {place} refused {}: {}", self.reason.number(), self.reason),
        }
    }
}

impl Error for Refusal {}

/// The reasons, each with its number and its meaning.
macro_rules! reasons {
    ($($name:ident = $number:literal, $meaning:literal;)*) => {
        /// What was wrong. Later versions may add reasons.
        #[derive(Clone, Copy, Debug, PartialEq, Eq, Hash)]
        #[non_exhaustive]
        #[repr(u64)]
        pub enum Reason {
            $(#[doc = $meaning] $name = $number,)*
        }

        impl Reason {
            /// The reason with this number.
            pub const fn from_number(number: u64) -> Option<Reason> {
                match number {
                    $($number => Some(Reason::$name),)*
                    _ => None,
                }
            }
        }

        impl fmt::Display for Reason {
            fn fmt(&self, f: &mut fmt::Formatter<'_>) -> fmt::Result {
                f.write_str(match self {
                    $(Reason::$name => $meaning,)*
                })
            }
        }
    };
}

reasons! {
    Vertices = 1, "n is not 1 to 64";
    Length = 2, "the sheet isn't n + n × n words";
    Vertex = 3, "a vertex named is n or more";
    StrayBit = 4, "a mask, or a row in a recount, has a bit at n or above";
    SelfLoop = 5, "an edge to insert runs from a vertex to itself";
    Present = 6, "an edge to insert is already there";
    Absent = 7, "an edge to delete or go without is not there";
    Cycle = 8, "a cycle";
    NotValid = 9, "the sheet is not valid, or its counts lead a path by number astray";
    Buffer = 10, "the buffer to write is too short";
    NoSuchPath = 11, "a path's number is not below the count";
    NoPath = 12, "a path has no vertices, more than n, or two neighbours without an edge";
    PlanLength = 13, "a plan's length is not a multiple of 8, or over 32,768 bytes";
    Record = 14, "a record of a plan is malformed";
}

impl Reason {
    /// The refusal's number.
    pub const fn number(self) -> u64 {
        self as u64
    }
}
