//! Jobs in which one cell meets one of the tests of a strip with equality: a
//! whole number decides there, and rounding or a wrong sign of comparison shows.

use crate::edges::{numbers_mut, Ground, Shape, SHAPES};
use crate::jobs::tuned_job;
use crate::numbers::{lay, Numbers, COUNT, GRAIN, M, N, REACH, X, Y};
use crate::random::Random;
use clearance_reference::strips::{Piece, Strip};
use clearance_reference::Edge;

/// Whole legs and hypotenuse of right triangles, some with one leg only.
const TRIANGLES: [[i64; 3]; 8] = [
    [3, 4, 5],
    [4, 3, 5],
    [5, 12, 13],
    [15, 8, 17],
    [20, 21, 29],
    [7, 24, 25],
    [1, 0, 1],
    [0, 1, 1],
];

/// The test that is met with equality.
#[derive(Clone, Copy, Debug)]
pub enum Test {
    Inside,
    Apart,
    /// The same of a strip whose axis is (0, 0), so that nothing lies across.
    ApartNoAxis,
    Across,
}

/// How many tests there are.
pub const TESTS: usize = 4;

impl Test {
    const ALL: [Test; TESTS] = [Test::Inside, Test::Apart, Test::ApartNoAxis, Test::Across];

    /// Whether the letter may stand at the cell. The strip is the whole edge's:
    /// if it is away, so is the edge. At a tie of inside every point of the strip
    /// is nearer than the reach to the cell's centre, so the cell is not clear.
    pub fn allows(self, letter: char) -> bool {
        (letter == 'C') != matches!(self, Test::Inside)
    }

    /// Shapes of edges for it.
    fn shapes(self) -> &'static [Shape] {
        match self {
            Test::ApartNoAxis => &[Shape::Spot, Shape::Back],
            _ => &SHAPES,
        }
    }
}

/// Where the equality is: the test and the cell, counted as in the map.
#[derive(Clone, Copy)]
pub struct Tie {
    pub test: Test,
    pub index: usize,
}

/// A cell: its lower left corner and M.
#[derive(Clone, Copy)]
struct Cell {
    corner: [i64; 2],
    power: i32,
}

impl Cell {
    fn half_side(self) -> i64 {
        8 << self.power
    }

    /// From the strip's centre to the cell's, in fine units.
    fn offset(self, strip: &Strip) -> [i64; 2] {
        [0, 1].map(|c| 16 * self.corner[c] + self.half_side() - strip.centre[c])
    }

    /// The reach at which the test is met with equality, if it is a whole one.
    fn tied_reach(self, strip: &Strip, test: Test) -> Option<i64> {
        let [wx, wy] = self.offset(strip);
        let around = strip.extent().map(|extent| extent + self.half_side());
        let size = |x: i64, y: i64| root(x * x + y * y);
        let reach = match test {
            Test::Inside => size(wx.abs() + around[0], wy.abs() + around[1])?,
            Test::Apart | Test::ApartNoAxis => {
                size((wx.abs() - around[0]).max(0), (wy.abs() - around[1]).max(0))?
            }
            Test::Across => {
                let [p, q] = strip.axis;
                let [a, b] = strip.half_box.map(|half| half + self.half_side());
                let across = (wx * q - wy * p).abs() - a * q.abs() - b * p.abs();
                let square = p * p + q * q;
                let least = root(square).unwrap_or(square.isqrt() + 1);
                (least > 0 && across % least == 0).then(|| across / least)?
            }
        };
        (reach > 0 && reach % 16 == 0).then_some(reach / 16)
    }
}

/// The root of a square number.
fn root(square: i64) -> Option<i64> {
    let root = square.isqrt();
    (root * root == square).then_some(root)
}

/// A job with such a cell. In the few cases where none is found it is some
/// other job, and has no tie.
pub fn tied_job(random: &mut Random) -> (Numbers, Option<Tie>) {
    let test = random.choose(&Test::ALL);
    for _ in 0..4_000 {
        let size = random.choose(&[2, 5, 12, 30]);
        let middle = [0, 0];
        let shape = random.choose(test.shapes());
        let line = random.once_in(2);
        let edge = Ground { middle, size }.edge(random, shape, line);
        let strip = Strip::of(&edge, Piece::WHOLE);
        let Some(cell) = some_cell(random, &strip, test) else {
            continue;
        };
        if let Some(reach) = cell.tied_reach(&strip, test) {
            let (job, index) = job_around(random, edge, &strip, cell, reach as i32);
            return (job, Some(Tie { test, index }));
        }
    }
    (tuned_job(random, 4), None)
}

/// A cell that may do. For the tests of a distance it is laid so that the
/// distances along x and y are the legs of a triangle.
fn some_cell(random: &mut Random, strip: &Strip, test: Test) -> Option<Cell> {
    let power = random.between(0, 3);
    let mut corner = [0; 2].map(|_| i64::from(random.between(-60, 60)));
    let cell = Cell { corner, power };
    let side = match test {
        Test::Across => return Some(cell),
        Test::Inside => -1,
        Test::Apart | Test::ApartNoAxis => 1,
    };
    let triangle = random.choose(&TRIANGLES);
    let scale = i64::from(random.between(1, 6));
    for c in 0..2 {
        let half = cell.half_side();
        let apart = 16 * scale * triangle[c] + side * (strip.extent()[c] + half);
        let sign = random.choose(&[-1, 1]);
        let low = strip.centre[c] + sign * apart - half;
        if triangle[c] > 0 && (apart < 0 || low % 16 != 0) {
            return None;
        }
        corner[c] = low.div_euclid(16);
    }
    Some(Cell { corner, power })
}

/// The job of one edge whose plate has this cell, and where in the map it is.
/// Most often the edge is a leaf at once; all is moved somewhere.
fn job_around(
    random: &mut Random,
    mut edge: Edge,
    strip: &Strip,
    cell: Cell,
    reach: i32,
) -> (Numbers, usize) {
    let mut job = [0; clearance::JOB_NUMBERS];
    let [width, height] = strip.extent();
    let leaf_grain = (width.max(height) as i32 + 15) / 16;
    job[GRAIN] = leaf_grain / random.choose(&[1, 1, 1, 2]) + random.between(0, 1);
    job[GRAIN] = job[GRAIN].max(1);
    job[REACH] = reach;
    job[COUNT] = 1;
    job[M] = cell.power;
    // Where there is one, most often a plate whose map is drawn by rows.
    let rows_side = (24 * reach).ilog2() as i32 + 1;
    job[N] = match rows_side - cell.power {
        spread @ 0..=8 if !random.once_in(3) => cell.power + spread,
        _ => cell.power + random.between(0, 4),
    };
    let far = random.choose(&[0, 100, 990_000]);
    let side = 1 << (job[N] - job[M]);
    let mut index = 0;
    for (c, corner) in [X, Y].into_iter().enumerate() {
        let moved = random.between(-far, far);
        let before = random.between(0, side - 1);
        job[corner] = cell.corner[c] as i32 - (before << job[M]) + moved;
        index += before as usize * if c == 0 { 1 } else { side as usize };
        for number in numbers_mut(&mut edge).iter_mut().skip(c).step_by(2) {
            *number += moved;
        }
    }
    lay(&mut job, 0, &edge);
    (job, index)
}
