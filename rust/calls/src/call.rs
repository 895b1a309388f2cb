//! The calls of the interface as values, and the table that says of each what it takes and what it may answer.

use crate::program::ALL;

/// A call and what it is given besides n and the buffers lent to it.
#[derive(Clone, Copy, Debug, PartialEq)]
pub enum Call {
    Empty,
    Insert(Edges),
    Delete(Edges),
    PathCount {
        from: usize,
        to: usize,
    },
    /// Without the edge from `edge_from` to `edge_to`.
    ReachesWithout {
        from: usize,
        to: usize,
        edge_from: usize,
        edge_to: usize,
    },
    /// The path goes to the bytes lent.
    Unrank {
        from: usize,
        to: usize,
        k: u64,
    },
    /// The path is the bytes lent.
    Rank,
    /// The plan is the bytes lent.
    ReadPlan,
    /// The plan goes to the bytes lent.
    WritePlan,
    Recount,
    Validate,
}

/// The edges that an edit names: one, or from each vertex of a mask to v and from v to each vertex of another.
#[derive(Clone, Copy, Debug, PartialEq)]
pub enum Edges {
    One { from: usize, to: usize },
    At { v: usize, predecessors: u64, successors: u64 },
}

/// Gives the calls to the macro named, a row each: the call as a value; its name; its function in `lugloquat::sys`; in brackets,
/// what the function takes after n; what its value is ([`Value`]); and the numbers by which document 01 refuses it, in the order of
/// its checks.
///
/// What a function takes after n is the sheet, `mut` if it may write it and `const` if it only reads it; then its own arguments; and
/// then, after a semicolon, the bytes lent, if it takes any, by the names that their place and their number have in [`crate::Lent`].
#[macro_export]
macro_rules! each_call {
    ($give_to:ident) => {
        $give_to! {
            Call::Empty => empty, lugloquat_empty(mut), Number, [1, 2];
            Call::Insert(Edges::One { from, to })
                => insert_edge, lugloquat_insert_edge(mut, from: usize, to: usize), Number, [1, 2, 3, 5, 6, 8];
            Call::Delete(Edges::One { from, to })
                => delete_edge, lugloquat_delete_edge(mut, from: usize, to: usize), Number, [1, 2, 3, 7];
            Call::Insert(Edges::At { v, predecessors, successors })
                => insert_edges_at, lugloquat_insert_edges_at(mut, v: usize, predecessors: u64, successors: u64), Number,
                [1, 2, 3, 4, 5, 6, 8];
            Call::Delete(Edges::At { v, predecessors, successors })
                => delete_edges_at, lugloquat_delete_edges_at(mut, v: usize, predecessors: u64, successors: u64), Number,
                [1, 2, 3, 4, 7];
            Call::PathCount { from, to } => path_count, lugloquat_path_count(const, from: usize, to: usize), Number, [1, 2, 3];
            Call::ReachesWithout { from, to, edge_from, edge_to }
                => reaches_without, lugloquat_reaches_without(const, from: usize, to: usize, edge_from: usize, edge_to: usize),
                YesOrNo, [1, 2, 3, 7];
            Call::Unrank { from, to, k }
                => unrank, lugloquat_unrank(const, from: usize, to: usize, k: u64; mut bytes length), Number,
                [1, 2, 3, 10, 11, 9];
            Call::Rank => rank, lugloquat_rank(const; const bytes length), Number, [1, 2, 3, 12];
            Call::ReadPlan
                => read_plan, lugloquat_read_plan(mut; const bytes length), Number, [1, 2, 9, 13, 14, 3, 5, 6, 7, 8];
            Call::WritePlan => write_plan, lugloquat_write_plan(const; mut bytes length), Number, [1, 2, 9, 10];
            Call::Recount => recount, lugloquat_recount(mut), Number, [1, 2, 4, 8];
            Call::Validate => validate, lugloquat_validate(const), YesOrNo, [1, 2];
        }
    };
}

/// What the table says of a call.
pub struct About {
    pub name: &'static str,
    pub sheet: Access,
    /// The buffers of bytes that it takes.
    pub bytes: &'static [Access],
    pub value: Value,
    /// The numbers by which it is refused.
    pub refusals: &'static [u64],
}

/// What a call may do with a buffer.
#[derive(Clone, Copy, PartialEq)]
pub enum Access {
    Read,
    Write,
}

/// The value of an accepted call: any number, or 1 for yes and 0 for no.
#[derive(Clone, Copy, PartialEq)]
pub enum Value {
    Number,
    YesOrNo,
}

impl Edges {
    pub fn one(from: usize, to: usize) -> Edges {
        Edges::One { from, to }
    }

    /// From each vertex of the first mask to v, and from v to each vertex of the second.
    pub fn at(v: usize, predecessors: u64, successors: u64) -> Edges {
        Edges::At { v, predecessors, successors }
    }
}

impl Call {
    /// The insertion of these edges, or their deletion.
    pub fn edit(inserts: bool, edges: Edges) -> Call {
        if inserts {
            Call::Insert(edges)
        } else {
            Call::Delete(edges)
        }
    }

    pub fn about(&self) -> &'static About {
        let mut all = ALL.iter();
        all.find(|about| about.name == self.name())
            .expect("every name is in the table")
    }

    pub fn is_edit(&self) -> bool {
        matches!(self, Call::Insert(_) | Call::Delete(_))
    }

    /// Whether it leaves every sheet alone.
    pub fn only_reads_sheet(&self) -> bool {
        self.about().sheet == Access::Read
    }

    /// Whether it takes a path or a plan.
    pub fn takes_bytes(&self) -> bool {
        !self.about().bytes.is_empty()
    }

    /// Whether it takes bytes and leaves them alone.
    pub fn only_reads_bytes(&self) -> bool {
        self.takes_bytes() && !self.writes_bytes()
    }

    /// Whether it writes the first of the bytes lent.
    pub fn writes_bytes(&self) -> bool {
        self.about().bytes.contains(&Access::Write)
    }
}
