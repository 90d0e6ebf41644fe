//! Random legal jobs of many shapes and sizes.

use super::random::Xorshift;
use clearance_reference::{judge, Edge, Job, COORDINATE_LIMIT, GRAIN_LIMIT, REACH_LIMIT};

/// The shape of an edge.
#[derive(Clone, Copy, Debug)]
pub enum Shape {
    Point,
    /// A cubic along a line, for which its points are near enough.
    StraightCubic,
    /// The same with a parameter that runs back and forth.
    FoldedCubic,
    Cusp,
    Loop,
    Closed,
    Wiggle,
    /// No cubic: marked as a line.
    Line,
    /// A line in one coordinate's direction.
    SquareLine,
    /// A line of one point.
    PointLine,
}

pub const SHAPES: [Shape; 10] = [
    Shape::Point,
    Shape::StraightCubic,
    Shape::FoldedCubic,
    Shape::Cusp,
    Shape::Loop,
    Shape::Closed,
    Shape::Wiggle,
    Shape::Line,
    Shape::SquareLine,
    Shape::PointLine,
];

/// So many of them, the first, are cubics.
const CUBICS: usize = 7;

/// Sizes of an outline, from a few units to the whole range.
const SIZES: [i32; 6] = [2, 12, 90, 1_500, 40_000, 1_000_000];

fn coordinate(number: i64) -> i32 {
    let limit = i64::from(COORDINATE_LIMIT);
    number.clamp(-limit, limit) as i32
}

/// These points, moved from the origin to a middle.
fn about<const POINTS: usize>(middle: [i32; 2], points: [[i32; 2]; POINTS]) -> [[i32; 2]; POINTS] {
    points.map(|point| [0, 1].map(|c| coordinate(i64::from(point[c]) + i64::from(middle[c]))))
}

fn cubic(middle: [i32; 2], points: [[i32; 2]; 4]) -> Edge {
    let [[x0, y0], [x1, y1], [x2, y2], [x3, y3]] = about(middle, points);
    Edge::Cubic([x0, y0, x1, y1, x2, y2, x3, y3])
}

fn line(middle: [i32; 2], ends: [[i32; 2]; 2]) -> Edge {
    let [[x0, y0], [x1, y1]] = about(middle, ends);
    Edge::Line([x0, y0, x1, y1])
}

/// An edge about the middle of the outline.
fn random_edge(rng: &mut Xorshift, shape: Shape, size: i32, middle: [i32; 2]) -> Edge {
    let mut pick = || [rng.between(-size, size), rng.between(-size, size)];
    let [p, q, a, b] = [pick(), pick(), pick(), pick()];
    let [w, h] = q;
    let along = |k: i32| [0, 1].map(|c| p[c] + k * (q[c] - p[c]) / 3);
    match shape {
        Shape::Point => cubic(middle, [p; 4]),
        Shape::StraightCubic => cubic(middle, [p, along(1), along(2), q]),
        Shape::FoldedCubic => cubic(middle, [p, along(5), along(-2), q]),
        Shape::Cusp => cubic(middle, [[0, 0], [w, h], [0, h], [w, 0]]),
        Shape::Loop => cubic(middle, [[0, 0], [2 * w, h], [-w, h], [w, 0]]),
        Shape::Closed => cubic(middle, [p, a, b, p]),
        Shape::Wiggle => cubic(middle, [p, a, b, q]),
        Shape::Line => line(middle, [p, q]),
        Shape::SquareLine => {
            let level = a[0] < 0;
            line(middle, [p, if level { [w, p[1]] } else { [p[0], h] }])
        }
        Shape::PointLine => line(middle, [p, p]),
    }
}

/// A legal job; some few are long. The plate lies about the outline and the
/// reach is a good part of it, so that all three letters turn up. `spread` is
/// the greatest N - M.
pub fn random_job(rng: &mut Xorshift, spread: i32) -> Job {
    let size = rng.choose(&SIZES);
    let room = COORDINATE_LIMIT - size;
    let middle = [rng.between(-room, room), rng.between(-room, room)];
    let mut job = Job::ZERO;
    let one_shape = rng.choose(&SHAPES);
    let mixed = rng.below(2) == 0;
    for _ in 0..rng.choose(&[1, 1, 1, 2, 2, 3, 5]) {
        let shape = if mixed {
            rng.choose(&SHAPES)
        } else {
            one_shape
        };
        job.add(&random_edge(rng, shape, size, middle));
    }
    lay_plate(rng, &mut job, size, middle, spread);
    assert_eq!(judge(&job), Ok(()));
    job
}

/// A legal job of a few cubics in multiples of 64, with a grain as coarse: most
/// of its strips are exact, and equal lengths are common.
pub fn coarse_job(rng: &mut Xorshift, spread: i32) -> Job {
    const UNIT: i32 = 64;
    let units = rng.choose(&[1, 2, 4, 8]);
    let middle = [rng.between(-99, 99), rng.between(-99, 99)];
    let mut job = Job::ZERO;
    for _ in 0..rng.choose(&[1, 1, 2, 3]) {
        let shape = rng.choose(&SHAPES[..CUBICS]);
        let edge = random_edge(rng, shape, units, middle);
        job.add(&Edge::Cubic(edge.place().map(|number| UNIT * number)));
    }
    let size = UNIT * units;
    lay_plate(rng, &mut job, size, middle.map(|m| UNIT * m), spread);
    job.reach = 8 * rng.between(1, 24 * units);
    job.grain = size / rng.choose(&[1, 1, 2, 3]);
    assert_eq!(judge(&job), Ok(()));
    job
}

fn lay_plate(rng: &mut Xorshift, job: &mut Job, size: i32, middle: [i32; 2], spread: i32) {
    let exponent = size.ilog2() as i32;
    job.n = rng.between(exponent - 1, exponent + 3).clamp(0, 20);
    job.m = (job.n - rng.between(0, spread)).max(0);
    let side = 1 << job.n;
    let jitter = side / 4;
    let corner = middle.map(|m| coordinate(i64::from(m - side / 2 + rng.between(-jitter, jitter))));
    [job.x, job.y] = corner;
    let part = rng.choose(&[2, 3, 4, 5, 8, 1_000_000]);
    job.reach = (side / part + rng.between(0, 3)).clamp(1, REACH_LIMIT);
    let finest = size / rng.choose(&[1, 12, 50, 120, 250, 400]);
    job.grain = (finest + rng.between(0, 2)).clamp(1, GRAIN_LIMIT);
}
