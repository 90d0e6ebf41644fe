//! What the tests share: a generator of numbers, jobs of many shapes, a second
//! way to a cubic's strip, another to a point's bounds and reads, and the exact
//! check of a finished map.

// Each test file uses its own part of this.
#![allow(dead_code)]

pub mod brute_force;
pub mod jobs;
pub mod plain;
pub mod random;
pub mod reckoning;

use clearance_reference::strips::Piece;
use clearance_reference::{map, trees, Edge, Job, Refusal};

/// The sample sheet.
pub const SAMPLE_SHEET: &str = "\
(job
(plate -8 -8 4)
(cell 1)
(reach 4)
(grain 1)
(edge (0 0) (0 0) (0 0) (0 0))
)
";

/// Its map. By columns, and by rows just so, the near sides of the cells are 6,
/// 4, 2, 0, 0, 2, 4 and 6 from the point and the far sides 8, 6, 4, 2, 2, 4, 6
/// and 8. The reach is 4: a near side of 6 or 4 is enough for C, two of 2 are
/// not; two far sides of 2 are I, and 2 with 4 is too far.
pub const SAMPLE_MAP: &str = "\
(map 8
(row CCCCCCCC)
(row CCCCCCCC)
(row CCDDDDCC)
(row CCDIIDCC)
(row CCDIIDCC)
(row CCDDDDCC)
(row CCCCCCCC)
(row CCCCCCCC)
)
";

/// The job of the sample sheet, written out by hand.
pub fn sample_job() -> Job {
    Job {
        count: 1,
        x: -8,
        y: -8,
        n: 4,
        m: 1,
        reach: 4,
        grain: 1,
        ..Job::ZERO
    }
}

/// The sample job with these edges and this grain.
pub fn job_with(edges: &[Edge], grain: i32) -> Job {
    let mut job = Job {
        count: 0,
        grain,
        ..sample_job()
    };
    edges.iter().for_each(|edge| job.add(edge));
    job
}

/// Four control numbers in x and four in y, as one cubic.
pub fn edge(x: [i32; 4], y: [i32; 4]) -> Edge {
    Edge::Cubic([x[0], y[0], x[1], y[1], x[2], y[2], x[3], y[3]])
}

/// A cubic whose control numbers are all the same.
pub fn point_edge(number: i32) -> Edge {
    Edge::Cubic([number; 8])
}

/// A line by x and y of its two ends.
pub fn line(ends: [i32; 4]) -> Edge {
    Edge::Line(ends)
}

/// A straight cubic that is long at grain 488 and accepted at 489.
pub fn long_edge() -> Edge {
    edge([0, 333_333, 666_666, 999_999], [0; 4])
}

/// A straight cubic whose pieces of depth 10 are as long as grain 3 lets them
/// be, to the fine unit, and have no remainder.
pub fn just_short_edge() -> Edge {
    edge([0, 2_048, 4_096, 6_144], [0; 4])
}

/// The piece of this depth and index; the index's bits lead to it.
pub fn piece_at(depth: u32, index: u32) -> Piece {
    let piece = (0..depth).rev().fold(Piece::WHOLE, |piece, level| {
        piece.halves().unwrap()[(index >> level & 1) as usize]
    });
    assert_eq!((piece.depth(), piece.index()), (depth, index));
    piece
}

/// A finished map and its store.
pub struct Finished {
    pub nodes: usize,
    pub store: Vec<i32>,
    pub letters: Vec<u8>,
}

/// Maps a job with exactly the memory it needs.
pub fn finished(job: &Job) -> Result<Finished, Refusal> {
    let mut store = vec![0; trees::node_count(&trees::grow(job)?) * trees::NUMBERS_A_NODE];
    let mut letters = vec![0; 1 << (2 * (job.n - job.m))];
    let nodes = map(job, &mut store, &mut letters)?;
    Ok(Finished {
        nodes,
        store,
        letters,
    })
}
