//! What the tests of the wrapper and `limit` share: the calls of the interface as values, programs behind the interface, and a seeded
//! generator.
//!
//! A further call is a variant of [`Call`] and a row of [`each_call`], both in `call.rs`.

mod call;
mod lent;
mod program;
pub mod rng;

pub use call::{About, Access, Call, Edges, Value};
pub use lent::{Lent, Slices};
pub use program::{by_wrapper, Program, ALL, OURS};
