//! Jobs made illegal, in one way or several. A few stay legal.

use crate::numbers::{Numbers, COUNT, M, MARKS, N, PLACE, PLACES};
use crate::random::Random;
use clearance::{EDGES_MOST, LINE, LINE_NUMBERS};

/// Numbers at, just past and far past the ends of the ranges.
const ODD: [i32; 30] = [
    i32::MIN,
    i32::MIN + 1,
    -10_000_000,
    -9_999_999,
    -1_000_001,
    -1_000_000,
    -100_000,
    -64,
    -8,
    -1,
    0,
    1,
    8,
    9,
    10,
    19,
    20,
    21,
    31,
    32,
    64,
    65,
    99_999,
    100_000,
    100_001,
    1_000_000,
    1_000_001,
    9_999_999,
    i32::MAX - 1,
    i32::MAX,
];

/// Any number, most often about the end of some range.
pub fn odd_number(random: &mut Random) -> i32 {
    match random.below(4) {
        0 => random.number(),
        1 => random.choose(&ODD).wrapping_add(random.between(-2, 2)),
        _ => random.choose(&ODD),
    }
}

/// Any number but 0.
fn not_zero(random: &mut Random) -> i32 {
    let any = random.number();
    match random.choose(&[1, -1, i32::MIN, any]) {
        0 => 1,
        number => number,
    }
}

/// Spoils a job once or twice.
pub fn spoil(random: &mut Random, job: &mut Numbers) {
    for _ in 0..random.between(1, 2) {
        spoil_once(random, job);
    }
}

/// How many of the places are edges; a count past them all means them all.
fn used(job: &Numbers) -> usize {
    usize::try_from(job[COUNT]).unwrap_or(0).min(EDGES_MOST)
}

fn spoil_once(random: &mut Random, job: &mut Numbers) {
    let past_edges = PLACES + PLACE * used(job);
    match random.below(13) {
        0 => job[COUNT] = random.choose(&[0, -1, 63, 64, 65, 66, i32::MIN, i32::MAX]),
        1 => job[COUNT] = job[COUNT].wrapping_add(random.choose(&[-1, 1])),
        2 => (job[N], job[M]) = (random.between(-1, 21), random.between(-1, 21)),
        3 => (job[N], job[M]) = (job[M], job[N]),
        // The first and the last number past the edges.
        4 if past_edges < MARKS => job[past_edges] = not_zero(random),
        5 => job[MARKS - 1] = not_zero(random),
        6 => {
            let place = random.below(job.len());
            job[place] = odd_number(random);
        }
        7 => {
            let place = PLACES + random.below((past_edges - PLACES).max(1));
            job[place] = odd_number(random);
        }
        8 if random.once_in(4) => *job = job.map(|_| random.number()),
        9..=11 => spoil_marks(random, job),
        _ => {
            let place = random.below(PLACES);
            job[place] = odd_number(random);
        }
    }
}

/// Spoils a mark, or what goes with it.
fn spoil_marks(random: &mut Random, job: &mut Numbers) {
    let count = used(job);
    let edge = random.below(count.max(1));
    let spare = PLACES + PLACE * edge + LINE_NUMBERS;
    let mark = &mut job[MARKS + edge];
    match random.below(6) {
        0 => *mark = random.choose(&[2, -1, 3, i32::MIN, i32::MAX]),
        1 => *mark = odd_number(random),
        // The place of the other kind; of a line it is a legal cubic.
        2 => *mark ^= LINE,
        // The first and the last mark past the edges.
        3 if count < EDGES_MOST => job[MARKS + count] = not_zero(random),
        4 => job[MARKS + EDGES_MOST - 1] = not_zero(random),
        // A line with one of its last four numbers not 0.
        _ => {
            *mark = LINE;
            job[spare..PLACES + PLACE * (edge + 1)].fill(0);
            job[spare + random.below(PLACE - LINE_NUMBERS)] = not_zero(random);
        }
    }
}
