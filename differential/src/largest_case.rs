//! The longest sheet and the fullest store there can be.

use crate::fault::Fault;
use crate::lent::Lent;
use crate::numbers::{lay, Numbers, COUNT, GRAIN, M, MARKS, N, REACH, X, Y};
use crate::points_case::{self, Asked};
use crate::random::Random;
use crate::spots::{spot_in_range, spot_row};
use crate::stores::right_numbers;
use crate::tally::Tally;
use crate::{map_case, point_case, write_case};
use clearance_reference::Edge;

/// A straight cubic and a line, each with the least grain at which it is not long:
/// there it takes all ten halvings.
const DEEP_EDGES: [(Edge, i32); 2] = [
    (Edge::Cubic([0, 0, 333_333, 0, 666_666, 0, 999_999, 0]), 489),
    (Edge::Line([-1_000_000, 0, 1_000_000, 0]), 977),
];

/// The job with the longest sheet: each number has the most bytes it can have.
fn longest_sheet() -> Numbers {
    let mut job = [-1_000_000; clearance::JOB_NUMBERS];
    (job[N], job[M], job[COUNT]) = (20, 20, 64);
    (job[REACH], job[GRAIN]) = (1_000_000, 100_000);
    job[MARKS..].fill(0);
    job
}

/// A job with the most nodes, on a plate of one cell.
fn fullest_store((edge, grain): (Edge, i32)) -> Numbers {
    let mut job = [0; clearance::JOB_NUMBERS];
    (job[X], job[Y]) = (-5_000, 1_000);
    (job[N], job[M], job[COUNT]) = (13, 13, 64);
    (job[REACH], job[GRAIN]) = (500, grain);
    for index in 0..clearance::EDGES_MOST {
        lay(&mut job, index, &edge);
    }
    job
}

/// The longest sheet each time, the fullest store now and then, since it takes
/// long. The lengths are the ones that are said to be always enough.
pub fn largest(random: &mut Random, tally: &mut Tally) -> Result<(), Fault> {
    let sheet = clearance::SHEET_WRITTEN_MOST;
    for length in [sheet - 1, sheet] {
        write_case::compare(&longest_sheet(), length, random.bits(), tally)?;
    }
    if !random.once_in(20) {
        return Ok(());
    }
    let job = fullest_store(random.choose(&DEEP_EDGES));
    for numbers in [clearance::STORE_MOST - 1, clearance::STORE_MOST] {
        map_case::compare(&job, (numbers, 1), random.bits(), tally)?;
    }
    let right = right_numbers(&job);
    let store = Lent::holding(&right, random.bits());
    let spot = spot_in_range(random, &job);
    point_case::compare(&job, spot, &store, random.bits(), tally)?;
    let spots = spot_row(random, &job, 2 * clearance::SPOTS_MOST);
    points_case::compare(&job, &Asked::enough(spots, store), random.bits(), tally)
}
