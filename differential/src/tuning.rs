//! Grains and reaches at which a comparison is equal or nearly so.

use crate::numbers::{
    edge_at, is_by_rows, reference_job, rows_reach, Numbers, COUNT, M, N, REACH, X, Y,
};
use crate::random::Random;
use clearance_reference::strips::{Piece, Strip, DEEPEST};
use clearance_reference::{trees, Refusal, GRAIN_LIMIT, REACH_LIMIT};

/// The strip of a random piece of a random edge.
fn some_strip(random: &mut Random, job: &Numbers, deepest: u32) -> Strip {
    let edge = edge_at(job, random.below(job[COUNT] as usize));
    let mut piece = Piece::WHOLE;
    for _ in 0..random.below(deepest as usize + 1) {
        piece = piece
            .halves()
            .map_or(piece, |halves| random.choose(&halves));
    }
    Strip::of(&edge, piece)
}

/// A grain at which some piece is just short, or just not.
pub fn tied_grain(random: &mut Random, job: &Numbers) -> i32 {
    let [x, y] = some_strip(random, job, DEEPEST).extent();
    (x.max(y) / 16) as i32 + random.between(0, 1)
}

/// The least grain at which a legal job is not long, or the greatest of all.
pub fn brink_grain(job: &Numbers) -> i32 {
    let mut trial = reference_job(job);
    let (mut low, mut high) = (1, GRAIN_LIMIT);
    while low < high {
        trial.grain = (low + high) / 2;
        match trees::grow(&trial) {
            Err(Refusal::Long) => low = trial.grain + 1,
            _ => high = trial.grain,
        }
    }
    low
}

/// A reach that is about some distance, and with which the map is drawn by rows
/// just where it is with the job's own; that one, if none is soon found.
pub fn tied_reach(random: &mut Random, job: &Numbers) -> i32 {
    let fits = |reach: &i32| (*reach <= rows_reach(job)) == is_by_rows(job);
    let mut reaches = (0..20).map(|_| some_distance(random, job));
    reaches.find(fits).unwrap_or(job[REACH])
}

/// About the least or the greatest distance of some cell, of any size, to some
/// strip's upright box.
fn some_distance(random: &mut Random, job: &Numbers) -> i32 {
    let strip = some_strip(random, job, 5);
    let extent = strip.extent();
    let power = random.between(job[M], job[N]);
    let half_side = 8_i64 << power;
    let cells = 1 << (job[N] - power);
    let (mut near, mut far) = (0, 0);
    for c in 0..2 {
        let index = random.below(cells) as i64;
        let centre = 16 * i64::from(job[[X, Y][c]]) + (2 * index + 1) * half_side;
        let apart = (centre - strip.centre[c]).abs();
        let around = extent[c] + half_side;
        near += (apart - around).max(0).pow(2);
        far += (apart + around).pow(2);
    }
    let reach = random.choose(&[near, far]).isqrt() / 16 + random.choose(&[0, 0, 1]);
    reach.clamp(1, i64::from(REACH_LIMIT)) as i32
}
