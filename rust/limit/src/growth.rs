//! The times of the edits and of a validation as the graphs with shuffled numbers grow, as CSV for `plot`.

use crate::{
    blocks::{self, Block},
    table::rounded,
    work::Work,
};

/// The numbers of vertices.
pub const SIZES: [usize; 5] = [4, 8, 16, 32, 64];

/// Calls that are timed together, each with its part of the block.
const GROUPS: [(&[(&str, usize)], Block); 3] = [
    (&[("insert_edge", 1), ("delete_edge", 0)], blocks::edges),
    (&[("insert_edges_at", 1), ("delete_edges_at", 0)], blocks::vertices),
    (&[("validate", 0)], blocks::validate),
];

pub fn print(works: &[Work], runs: usize) {
    println!("graph,call,n,edges,ours_ns,plain_ns");
    for work in works {
        for (calls, block) in GROUPS {
            let times = blocks::against(work, block, false, runs);
            for (call, part) in calls {
                let (ours, plain) = (rounded(times[0][*part]), rounded(times[1][*part]));
                println!(
                    "{},{call},{},{},{ours},{plain}",
                    work.graph.name,
                    work.n(),
                    work.graph.edge_count()
                );
            }
        }
    }
}
