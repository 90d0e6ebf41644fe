//! Random legal jobs. Some are long, which only their trees tell.

use crate::edges::{Ground, Mix, SHAPES};
use crate::numbers::{
    edge_at, lay, reference_job, rows_reach, Numbers, COUNT, GRAIN, M, N, PLACES, REACH, X, Y,
};
use crate::random::Random;
use crate::tuning::{brink_grain, tied_grain, tied_reach};
use clearance_reference::{judge, COORDINATE_LIMIT, GRAIN_LIMIT, REACH_LIMIT};

/// A legal job whose N - M is `spread` at most.
pub fn sketch_job(random: &mut Random, spread: i32) -> Numbers {
    let mut job = [0; clearance::JOB_NUMBERS];
    let ground = Ground::random(random);
    lay_edges(random, &mut job, ground);
    lay_plate(random, &mut job, ground, spread);
    job[REACH] = plain_reach(random, &job);
    job[GRAIN] = plain_grain(random, ground);
    debug_assert_eq!(judge(&reference_job(&job)), Ok(()));
    job
}

/// The same, often with a grain or a reach at which some comparison is close.
pub fn tuned_job(random: &mut Random, spread: i32) -> Numbers {
    let mut job = sketch_job(random, spread);
    match random.below(8) {
        0 | 1 => job[GRAIN] = tied_grain(random, &job),
        2 if job[COUNT] <= 3 => job[GRAIN] = brink_grain(&job) - random.between(0, 1),
        _ => {}
    }
    job[GRAIN] = job[GRAIN].clamp(1, GRAIN_LIMIT);
    if random.once_in(2) {
        job[REACH] = tied_reach(random, &job);
    }
    job
}

/// A job of many small edges all over the plate and a small reach, so that each
/// edge settles cells of its own.
pub fn crowded_job(random: &mut Random) -> Numbers {
    let mut job = sketch_job(random, 0);
    let size = random.choose(&[60, 300, 2_000, 15_000]);
    let middle = [0; 2].map(|_| random.between(-900_000, 900_000));
    let ground = Ground { middle, size };
    let count = random.choose(&[7, 33, 63, 64, 64]);
    let mix = Mix::random(random);
    job[PLACES..].fill(0);
    for index in 0..count {
        let shape = random.choose(&SHAPES);
        let line = mix.line(random);
        let edge = ground.part(random).edge(random, shape, line);
        lay(&mut job, index, &edge);
    }
    job[COUNT] = count as i32;
    job[N] = size.ilog2() as i32 + 1;
    job[M] = (job[N] - random.between(4, 6)).max(0);
    job[REACH] = (size / random.choose(&[15, 30, 60])).max(1);
    job[GRAIN] = (size / random.choose(&[10, 40, 100])).max(1);
    (job[X], job[Y]) = (middle[0] - (1 << job[N]) / 2, middle[1] - (1 << job[N]) / 2);
    job
}

fn lay_edges(random: &mut Random, job: &mut Numbers, ground: Ground) {
    let count = match random.below(120) {
        0..=2 => random.choose(&[63, 64]),
        3..=6 => random.between(6, 62),
        7..=30 => random.between(3, 5),
        _ => random.between(1, 2),
    };
    job[COUNT] = count;
    let one_shape = random.choose(&SHAPES);
    let mixed = random.once_in(2);
    let scattered = random.once_in(2);
    let mix = Mix::random(random);
    for index in 0..count as usize {
        let edge = if index > 0 && random.once_in(6) {
            // The edge before it once more: two edges then attain the same hi.
            edge_at(job, index - 1)
        } else {
            let own_shape = random.choose(&SHAPES);
            let own_ground = ground.part(random);
            let edge_ground = if scattered { own_ground } else { ground };
            let shape = if mixed { own_shape } else { one_shape };
            let line = mix.line(random);
            edge_ground.edge(random, shape, line)
        };
        lay(job, index, &edge);
    }
}

/// A plate about the outline, some of them much wider, or any other.
fn lay_plate(random: &mut Random, job: &mut Numbers, ground: Ground, spread: i32) {
    let about = ground.size.ilog2() as i32;
    job[N] = match random.below(10) {
        0 => random.between(0, 20),
        1 | 2 => random.between(about + 4, about + 7).min(20),
        _ => random.between(about - 1, about + 3).clamp(0, 20),
    };
    job[M] = (job[N] - random.between(0, spread)).max(0);
    let side = 1 << job[N];
    for (corner, middle) in [X, Y].into_iter().zip(ground.middle) {
        let free = match random.below(12) {
            0 => random.choose(&[-COORDINATE_LIMIT, COORDINATE_LIMIT]),
            1 => random.between(-COORDINATE_LIMIT, COORDINATE_LIMIT),
            _ => middle - side / 2 + random.between(-side / 4, side / 4),
        };
        job[corner] = free.clamp(-COORDINATE_LIMIT, COORDINATE_LIMIT);
    }
}

/// A good part of the plate, so that all three letters turn up; one at which the
/// map is drawn by rows, more often, as on small plates none is; or one at the
/// brink of that.
fn plain_reach(random: &mut Random, job: &Numbers) -> i32 {
    let brink = rows_reach(job);
    let reach = match random.below(20) {
        0 => random.choose(&[1, REACH_LIMIT]),
        1..=3 if brink > 0 => brink + random.between(-1, 1),
        4..=14 if brink > 0 => brink / random.choose(&[1, 2, 3, 5, 10, 40]),
        _ => (1 << job[N]) / random.choose(&[1, 2, 3, 4, 5, 8, 20]) + random.between(0, 3),
    };
    reach.clamp(1, REACH_LIMIT)
}

/// From leaves at once to many halvings; some are too fine.
fn plain_grain(random: &mut Random, ground: Ground) -> i32 {
    let part = random.choose(&[1, 2, 5, 12, 30, 70, 150, 400]);
    match random.below(20) {
        0 => random.choose(&[1, 10, GRAIN_LIMIT]),
        1 => 10,
        _ => (ground.size / part + random.between(0, 2)).clamp(1, GRAIN_LIMIT),
    }
}
