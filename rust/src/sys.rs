//! The C interface as it is: the declarations of `include/lugloquat.h`, which says what the caller of each owes.

use crate::{Reason, Refusal};

/// What a call answers.
#[repr(C)]
#[derive(Clone, Copy, Debug, PartialEq, Eq)]
pub struct Answer {
    /// 0 for accepted, else that of the refusal.
    pub number: u64,
    /// The refused record of a plan, from 1 up, else 0.
    pub place: u64,
    /// What was asked for, and 0 when refused.
    pub value: u64,
}

impl Answer {
    /// The value, or why there is none. The library answers no number that has no [`Reason`]: that is part of what is proved of it.
    pub fn result(self) -> Result<u64, Refusal> {
        if self.number == 0 {
            return Ok(self.value);
        }
        let reason = Reason::from_number(self.number).expect("the number of a refusal");
        let place = self.place;
        Err(Refusal { reason, place })
    }
}

extern "C" {
    pub fn lugloquat_empty(n: usize, sheet: *mut u64, words: usize) -> Answer;
    pub fn lugloquat_insert_edge(n: usize, sheet: *mut u64, words: usize, from: usize, to: usize) -> Answer;
    pub fn lugloquat_delete_edge(n: usize, sheet: *mut u64, words: usize, from: usize, to: usize) -> Answer;
    pub fn lugloquat_insert_edges_at(
        n: usize,
        sheet: *mut u64,
        words: usize,
        v: usize,
        predecessors: u64,
        successors: u64,
    ) -> Answer;
    pub fn lugloquat_delete_edges_at(
        n: usize,
        sheet: *mut u64,
        words: usize,
        v: usize,
        predecessors: u64,
        successors: u64,
    ) -> Answer;
    pub fn lugloquat_path_count(n: usize, sheet: *const u64, words: usize, from: usize, to: usize) -> Answer;
    pub fn lugloquat_reaches_without(
        n: usize,
        sheet: *const u64,
        words: usize,
        from: usize,
        to: usize,
        edge_from: usize,
        edge_to: usize,
    ) -> Answer;
    pub fn lugloquat_unrank(
        n: usize,
        sheet: *const u64,
        words: usize,
        from: usize,
        to: usize,
        k: u64,
        path: *mut u8,
        path_bytes: usize,
    ) -> Answer;
    pub fn lugloquat_rank(n: usize, sheet: *const u64, words: usize, path: *const u8, path_bytes: usize) -> Answer;
    pub fn lugloquat_read_plan(n: usize, sheet: *mut u64, words: usize, plan: *const u8, plan_bytes: usize) -> Answer;
    pub fn lugloquat_write_plan(n: usize, sheet: *const u64, words: usize, plan: *mut u8, plan_bytes: usize) -> Answer;
    pub fn lugloquat_recount(n: usize, sheet: *mut u64, words: usize) -> Answer;
    pub fn lugloquat_validate(n: usize, sheet: *const u64, words: usize) -> Answer;
}
