//! Exact path counts of an acyclic directed graph of 1 to 64 vertices, kept in one lent slice of words, by code that is proved.
//! This crate is the safe face of the static library: it forwards, and decides nothing itself.
//!
//! A sheet of n vertices is [`word_count`]`(n)` words. Word i, for i below n, is row i: its bit j is 1 exactly if an edge runs from
//! i to j. Word n + i × n + j is the count from i to j. A sheet is valid if no row has a bit at n or above, there is no cycle, and
//! each count is the number of paths; a vertex alone is one path, from it to itself.
//!
//! Every call answers for every n, every length, all words and all bytes. `Ok` has the call's value; `Err` says why it was refused,
//! and at which record of a plan, and then no word and no byte has changed.
//!
//! ```
//! use lugloquat::{delete_edges_at, empty, insert_edge, insert_edges_at, path_count, validate, word_count, Reason};
//! use lugloquat::{rank, reaches_without, read_plan, unrank, write_plan};
//!
//! let mut sheet = [0; word_count(5)];
//! empty(5, &mut sheet)?;
//! for (from, to) in [(0, 1), (0, 2), (1, 3), (2, 3)] {
//!     insert_edge(5, &mut sheet, from, to)?;
//! }
//! assert_eq!(path_count(5, &sheet, 0, 3), Ok(2));
//! let mut path = [0; 5];
//! assert_eq!(unrank(5, &sheet, 0, 3, 1, &mut path), Ok(3));
//! assert_eq!(path[..3], [0, 2, 3]);
//! assert_eq!(rank(5, &sheet, &path[..3]), Ok(1));
//! assert_eq!(reaches_without(5, &sheet, 0, 3, 0, 1), Ok(1));
//! assert_eq!(insert_edge(5, &mut sheet, 3, 0).unwrap_err().reason, Reason::Cycle);
//! assert_eq!(insert_edges_at(5, &mut sheet, 4, 1 << 1, 1 << 3), Ok(6));
//! assert_eq!(path_count(5, &sheet, 0, 3), Ok(3));
//! assert_eq!(delete_edges_at(5, &mut sheet, 4, 1 << 1, 1 << 3), Ok(4));
//! assert_eq!(validate(5, &sheet), Ok(1));
//! let refused = read_plan(5, &mut sheet, b"L 04 00\nL 03 04\n").unwrap_err();
//! assert_eq!((refused.place, refused.reason), (2, Reason::Cycle));
//! assert_eq!(read_plan(5, &mut sheet, b"T 02 03\nL 02 01\n"), Ok(4));
//! let mut plan = [0; 40];
//! assert_eq!(write_plan(5, &sheet, &mut plan), Ok(32));
//! assert_eq!(&plan[..32], b"L 00 01\nL 00 02\nL 01 03\nL 02 01\n");
//! # Ok::<(), lugloquat::Refusal>(())
//! ```
#![no_std]

mod refusal;
pub mod sys;

pub use refusal::{Reason, Refusal};

/// The most vertices that a sheet has.
pub const VERTICES: usize = 64;
/// The words of a sheet of so many vertices.
pub const WORDS: usize = 4160;
/// The most edges that a valid sheet has.
pub const EDGES: usize = 2016;

/// The words of a sheet of n vertices, or `usize::MAX` if there are more.
pub const fn word_count(n: usize) -> usize {
    n.saturating_mul(n).saturating_add(n)
}

const _: () = assert!(word_count(VERTICES) == WORDS);

/// Makes the sheet the empty one of n vertices, whatever its words were: no edge, and each count from a vertex to itself 1, every
/// other 0. The value is 0.
///
/// Refused as [`Reason::Vertices`], [`Reason::Length`], in this order.
pub fn empty(n: usize, sheet: &mut [u64]) -> Result<u64, Refusal> {
    // SAFETY: the words are those of the slice, lent for the call alone.
    unsafe { sys::lugloquat_empty(n, sheet.as_mut_ptr(), sheet.len()) }.result()
}

/// Inserts the edge from one vertex to another and brings every count up to date, as [`insert_edges_at`] does at the vertex `from`
/// with no predecessor and the one successor `to`; but a `to` of n or more is [`Reason::Vertex`]. The value is the number of set bits
/// in all rows afterwards.
///
/// Refused as [`Reason::Vertices`], [`Reason::Length`], [`Reason::Vertex`], [`Reason::SelfLoop`], [`Reason::Present`],
/// [`Reason::Cycle`], in this order.
pub fn insert_edge(n: usize, sheet: &mut [u64], from: usize, to: usize) -> Result<u64, Refusal> {
    // SAFETY: the words are those of the slice, lent for the call alone.
    unsafe { sys::lugloquat_insert_edge(n, sheet.as_mut_ptr(), sheet.len(), from, to) }.result()
}

/// Deletes the edge from one vertex to another and brings every count up to date, as [`delete_edges_at`] does at the vertex `from`
/// with no predecessor and the one successor `to`; but a `to` of n or more is [`Reason::Vertex`]. The value is the number of set bits
/// in all rows afterwards.
///
/// Refused as [`Reason::Vertices`], [`Reason::Length`], [`Reason::Vertex`], [`Reason::Absent`], in this order.
pub fn delete_edge(n: usize, sheet: &mut [u64], from: usize, to: usize) -> Result<u64, Refusal> {
    // SAFETY: the words are those of the slice, lent for the call alone.
    unsafe { sys::lugloquat_delete_edge(n, sheet.as_mut_ptr(), sheet.len(), from, to) }.result()
}

/// Inserts the edges from each vertex of `predecessors` to v and from v to each vertex of `successors`, all at once, and brings every
/// count up to date. Bit j of a mask is 1 exactly if vertex j is in it; with two empty masks the call is accepted, after
/// [`Reason::Vertices`], [`Reason::Length`] and [`Reason::Vertex`], and changes nothing. The value is the number of set bits in all
/// rows afterwards.
///
/// Let F(i) be the sum of count(i, a) over the predecessors a, and T(j) the sum of count(b, j) over the successors b. The call adds
/// count(i, v) × T(j) + F(i) × count(v, j) + F(i) × T(j) to count(i, j), modulo 2 to the 64, all from the counts before it.
/// [`Reason::Cycle`] says that some count(v, a), count(b, v) or count(b, a) is not 0; on a valid sheet that is so exactly if there
/// would be a cycle. A valid sheet stays valid; of the paths of any other nothing is claimed.
///
/// Refused as [`Reason::Vertices`], [`Reason::Length`], [`Reason::Vertex`], [`Reason::StrayBit`], [`Reason::SelfLoop`],
/// [`Reason::Present`], [`Reason::Cycle`], in this order, each looked for in all of these edges before the next.
pub fn insert_edges_at(n: usize, sheet: &mut [u64], v: usize, predecessors: u64, successors: u64) -> Result<u64, Refusal> {
    // SAFETY: the words are those of the slice, lent for the call alone.
    unsafe { sys::lugloquat_insert_edges_at(n, sheet.as_mut_ptr(), sheet.len(), v, predecessors, successors) }.result()
}

/// Deletes the edges from each vertex of `predecessors` to v and from v to each vertex of `successors`, all at once, and brings every
/// count up to date: with F and T as for [`insert_edges_at`] it takes count(i, v) × T(j) + F(i) × count(v, j) − F(i) × T(j) off
/// count(i, j), modulo 2 to the 64, all from the counts before it. The value is the number of set bits in all rows afterwards. A
/// valid sheet stays valid; two empty masks change nothing. On a sheet that is not valid an edge from v to itself may be there: it
/// may be in one mask or in both, and in both it counts in F and in T.
///
/// Refused as [`Reason::Vertices`], [`Reason::Length`], [`Reason::Vertex`], [`Reason::StrayBit`], [`Reason::Absent`], in this order.
pub fn delete_edges_at(n: usize, sheet: &mut [u64], v: usize, predecessors: u64, successors: u64) -> Result<u64, Refusal> {
    // SAFETY: the words are those of the slice, lent for the call alone.
    unsafe { sys::lugloquat_delete_edges_at(n, sheet.as_mut_ptr(), sheet.len(), v, predecessors, successors) }.result()
}

/// The count from one vertex to another as it stands in the sheet; on a valid sheet, the number of paths.
///
/// Refused as [`Reason::Vertices`], [`Reason::Length`], [`Reason::Vertex`], in this order.
pub fn path_count(n: usize, sheet: &[u64], from: usize, to: usize) -> Result<u64, Refusal> {
    // SAFETY: the words are those of the slice, and are only read.
    unsafe { sys::lugloquat_path_count(n, sheet.as_ptr(), sheet.len(), from, to) }.result()
}

/// Whether one vertex leads to another without the edge from `edge_from` to `edge_to`, which is there: the value is 1 exactly if
/// count(from, edge_from) × count(edge_to, to), modulo 2 to the 64, differs from count(from, to), else 0. On a valid sheet that is
/// 1 exactly if some path from the one to the other does not use the edge; of the paths of any other nothing is claimed.
///
/// Refused as [`Reason::Vertices`], [`Reason::Length`], [`Reason::Vertex`], [`Reason::Absent`], in this order.
pub fn reaches_without(
    n: usize,
    sheet: &[u64],
    from: usize,
    to: usize,
    edge_from: usize,
    edge_to: usize,
) -> Result<u64, Refusal> {
    // SAFETY: the words are those of the slice, and are only read.
    unsafe { sys::lugloquat_reaches_without(n, sheet.as_ptr(), sheet.len(), from, to, edge_from, edge_to) }.result()
}

/// Writes path number k, from 0 up, of those from one vertex to another, a byte a vertex, to the first bytes of `path`; the others
/// stay. The value is the number of vertices written. On a valid sheet the paths are numbered in ascending order, by the vertex at
/// the first place where they differ, and every number below the count has its path.
///
/// On any sheet the path is walked by the counts: at a vertex that is not `to`, the edges are tried by ascending far vertex b below
/// n; if k is below count(b, to) the walk goes to b, else that count is taken off k. On a sheet that is not valid it may come to a
/// vertex again, and may go astray: no edge fits, n vertices are reached and the last is not `to`, or k is not 0 on arriving.
///
/// Refused as [`Reason::Vertices`], [`Reason::Length`], [`Reason::Vertex`], [`Reason::Buffer`] (`path` has fewer than n bytes),
/// [`Reason::NoSuchPath`] (k is not below the count), [`Reason::NotValid`] (the walk goes astray), in this order.
pub fn unrank(n: usize, sheet: &[u64], from: usize, to: usize, k: u64, path: &mut [u8]) -> Result<u64, Refusal> {
    // SAFETY: the words and the bytes are those of the slices; the words are only read, the bytes lent for the call alone.
    unsafe { sys::lugloquat_unrank(n, sheet.as_ptr(), sheet.len(), from, to, k, path.as_mut_ptr(), path.len()) }.result()
}

/// The number of a path, given a byte a vertex: the sum, modulo 2 to the 64, of count(b, last) over the steps of the path, each
/// from x to y, and over every b below y with an edge from x to b, where `last` is the path's last vertex. On a valid sheet that is
/// the number by which [`unrank`] finds it. On any other the vertices may repeat, and of its paths nothing is claimed.
///
/// Refused as [`Reason::Vertices`], [`Reason::Length`], [`Reason::Vertex`] (any byte is n or more, however many there are),
/// [`Reason::NoPath`] (there are no vertices, more than n, or two neighbours without an edge), in this order.
pub fn rank(n: usize, sheet: &[u64], path: &[u8]) -> Result<u64, Refusal> {
    // SAFETY: the words and the bytes are those of the slices, and are only read.
    unsafe { sys::lugloquat_rank(n, sheet.as_ptr(), sheet.len(), path.as_ptr(), path.len()) }.result()
}

/// Reads a plan into a valid sheet: its records, each an insertion or a deletion of one edge, are applied in order, each to the sheet
/// as those before it left it; if one is refused, the sheet is as it was, and [`Refusal::place`] is that record's, from 1 up. The
/// value is the number of set bits in all rows afterwards. The sheet stays valid, and an empty plan leaves it as it is. The call keeps
/// a copy of the sheet on the stack, 33,280 bytes besides what the edits take.
///
/// A record is 8 bytes of ASCII: `L` to insert or `T` to delete, a space, the vertex that the edge runs from in two decimal digits, a
/// space, the vertex that it runs to in two, a line feed. A plan is nothing but records, 4,096 at most.
///
/// Refused as [`Reason::Vertices`], [`Reason::Length`], [`Reason::NotValid`], [`Reason::PlanLength`], and at a record as
/// [`Reason::Record`], [`Reason::Vertex`], [`Reason::SelfLoop`], [`Reason::Present`], [`Reason::Absent`], [`Reason::Cycle`],
/// in this order, each record for all of them before the next; a deletion as [`Reason::Absent`] alone once its vertices are past. The
/// first record that is refused gives the reason, whatever comes after it.
pub fn read_plan(n: usize, sheet: &mut [u64], plan: &[u8]) -> Result<u64, Refusal> {
    // SAFETY: the words and the bytes are those of the slices; the words are lent for the call alone, the bytes only read.
    unsafe { sys::lugloquat_read_plan(n, sheet.as_mut_ptr(), sheet.len(), plan.as_ptr(), plan.len()) }.result()
}

/// Writes the edges of a valid sheet as a plan to the first bytes of `plan`; the others stay. Each edge is one record that inserts
/// it, as [`read_plan`] has them, and they ascend by the vertex that the edge runs from, then by the one that it runs to. The value is
/// the number of bytes written. Read into an empty sheet of n vertices they give the same words.
///
/// Refused as [`Reason::Vertices`], [`Reason::Length`], [`Reason::NotValid`], [`Reason::Buffer`] (`plan` has fewer than 8 bytes an
/// edge), in this order.
pub fn write_plan(n: usize, sheet: &[u64], plan: &mut [u8]) -> Result<u64, Refusal> {
    // SAFETY: the words and the bytes are those of the slices; the words are only read, the bytes lent for the call alone.
    unsafe { sys::lugloquat_write_plan(n, sheet.as_ptr(), sheet.len(), plan.as_mut_ptr(), plan.len()) }.result()
}

/// Works out every count afresh from the rows, which stay. The value is the number of set bits in all rows.
///
/// Refused as [`Reason::Vertices`], [`Reason::Length`], [`Reason::StrayBit`], [`Reason::Cycle`], in this order. An edge from a vertex
/// to itself is a cycle.
pub fn recount(n: usize, sheet: &mut [u64]) -> Result<u64, Refusal> {
    // SAFETY: the words are those of the slice, lent for the call alone.
    unsafe { sys::lugloquat_recount(n, sheet.as_mut_ptr(), sheet.len()) }.result()
}

/// Whether the sheet is valid, whoever wrote it: the value is 1 if it is, else 0.
///
/// Refused as [`Reason::Vertices`], [`Reason::Length`], in this order.
pub fn validate(n: usize, sheet: &[u64]) -> Result<u64, Refusal> {
    // SAFETY: the words are those of the slice, and are only read.
    unsafe { sys::lugloquat_validate(n, sheet.as_ptr(), sheet.len()) }.result()
}
