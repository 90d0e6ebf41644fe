//! Jobs of edges that are repeated or mirrored, with points that several of them
//! are equally near: the order of the job decides there.

use crate::edges::numbers_mut;
use crate::jobs::tuned_job;
use crate::numbers::{edge_at, lay, reference_job, Numbers, COUNT, PLACES};
use crate::random::Random;
use crate::spots::spot_in_range;
use clearance_reference::trees::{self, Tree};
use clearance_reference::{Edge, COORDINATE_LIMIT};

/// A line along which x, coordinate 0, or y is the same.
#[derive(Clone, Copy)]
struct Axis {
    coordinate: usize,
    at: i32,
}

impl Axis {
    /// Through a control point of the edge or close by, so that the image lies
    /// beside the edge or shares an end with it.
    fn near(random: &mut Random, edge: &Edge) -> Axis {
        let coordinate = random.below(2);
        let number = edge.place()[coordinate + 2 * random.below(2)];
        let beside = random.choose(&[0, 0, 3, 40]);
        Axis {
            coordinate,
            at: in_range(number + random.between(-beside, beside)),
        }
    }

    /// The image of an edge. One past the range is moved into it, and then is as
    /// near by chance only.
    fn image(self, mut edge: Edge) -> Edge {
        let numbers = numbers_mut(&mut edge).iter_mut();
        for number in numbers.skip(self.coordinate).step_by(2) {
            *number = in_range(2 * self.at - *number);
        }
        edge
    }
}

fn in_range(number: i32) -> i32 {
    number.clamp(-COORDINATE_LIMIT, COORDINATE_LIMIT)
}

/// A job each of whose places has one of a few edges, or its image, in any order;
/// and points in range, those of mirrored edges on the axis.
pub fn repeated_job(random: &mut Random) -> (Numbers, [[i32; 2]; 4]) {
    let mut job = tuned_job(random, 8);
    let few: Vec<Edge> = (0..job[COUNT].min(3))
        .map(|index| edge_at(&job, index as usize))
        .collect();
    let axis = random.once_in(3).then(|| Axis::near(random, &few[0]));
    let count = match random.below(60) {
        0 => 64,
        1..=9 => random.between(6, 12),
        _ => random.between(2, 5),
    };
    job[PLACES..].fill(0);
    for index in 0..count as usize {
        let edge = random.choose(&few);
        let edge = match axis {
            Some(axis) if random.once_in(2) => axis.image(edge),
            _ => edge,
        };
        lay(&mut job, index, &edge);
    }
    job[COUNT] = count;
    let spots = [0; 4].map(|_| {
        let mut spot = spot_in_range(random, &job);
        if let Some(Axis { coordinate, at }) = axis {
            spot[coordinate] = at;
        }
        spot
    });
    (job, spots)
}

/// The edges of a job that attain hi, by way of all leaves; none if it has no
/// trees.
pub fn attaining_edges(job: &Numbers, spot: [i32; 2]) -> Vec<usize> {
    let trees = trees::grow(&reference_job(job)).unwrap_or_default();
    let bounds: Vec<i64> = trees.iter().map(|tree| own_hi(tree, spot)).collect();
    let hi = bounds.iter().min();
    (0..bounds.len())
        .filter(|&edge| Some(&bounds[edge]) == hi)
        .collect()
}

/// The least farthest square of one edge's leaves.
fn own_hi(tree: &Tree, spot: [i32; 2]) -> i64 {
    let far = tree.leaves().into_iter().map(|leaf| {
        let extent = leaf.extent();
        let [x, y] = [0, 1].map(|c| {
            let apart = (16 * i64::from(spot[c]) - leaf.centre[c]).abs();
            (apart + extent[c]).pow(2)
        });
        x + y
    });
    far.min().unwrap_or(i64::MAX)
}
