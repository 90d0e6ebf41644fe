//! The exact check of a finished map against RULES, "The words of demand
//! 3". It knows nothing of strips, trees or stores: it evaluates the Bernstein
//! form of a cubic, or the weighted ends of a line, at the dyadic parameters
//! k/1024 in whole numbers, and compares squares in `i128`.
//!
//! A map that passes has been refuted at none of these outline points, and each
//! claim that some outline point exists has been shown with a real one, so a
//! failure is always a fault of the map. The other way round, a right map is
//! never failed: the letters I and D rest on one piece of depth 10 at most,
//! both ends of which are among the parameters k/1024.
//! - I: all of that piece is nearer than R to all of the cell.
//! - D: that piece is a leaf whose upright box is nearer than R. The box is 2T
//!   wide and high at most and the cell 2^M, so the farthest two points of them
//!   are within R + (2T + 2^M)·√2, which is below R + E.
//!
//! C is refuted by an outline point nearer than R, not by one at R.

use clearance_reference::{Edge, Job};

/// The parameter runs over k/1024.
const STEPS: i64 = 1 << 10;
/// Outline points are kept times this.
const SCALE: i64 = STEPS * STEPS * STEPS;

/// An outline point times `SCALE`.
pub type Scaled = [i64; 2];

/// One coordinate at k/1024, times `SCALE`: the Bernstein form.
fn bernstein(b: [i32; 4], k: i64) -> i64 {
    let [b0, b1, b2, b3] = b.map(i64::from);
    let l = STEPS - k;
    b0 * l * l * l + 3 * b1 * k * l * l + 3 * b2 * k * k * l + b3 * k * k * k
}

/// One coordinate of a line at k/1024, times `SCALE`: both ends, weighted.
fn weighted(ends: [i32; 2], k: i64) -> i64 {
    let [first, second] = ends.map(i64::from);
    (first * (STEPS - k) + second * k) * STEPS * STEPS
}

/// An edge's point at k/1024, times `SCALE`.
pub fn edge_point(edge: &Edge, k: i64) -> Scaled {
    match *edge {
        Edge::Cubic([x0, y0, x1, y1, x2, y2, x3, y3]) => [
            bernstein([x0, x1, x2, x3], k),
            bernstein([y0, y1, y2, y3], k),
        ],
        Edge::Line([x0, y0, x1, y1]) => [weighted([x0, x1], k), weighted([y0, y1], k)],
    }
}

/// All the points k/1024 of an edge, both ends included.
pub fn edge_points(edge: &Edge) -> Vec<Scaled> {
    (0..=STEPS).map(|k| edge_point(edge, k)).collect()
}

/// The outline's points k/1024 of every edge.
pub fn outline_points(job: &Job) -> Vec<Scaled> {
    job.edges().flat_map(|edge| edge_points(&edge)).collect()
}

fn square_sum(x: i64, y: i64) -> i128 {
    i128::from(x) * i128::from(x) + i128::from(y) * i128::from(y)
}

/// Squared distance, times `SCALE` squared, of an outline point to a spot.
pub fn squared_distance(point: Scaled, spot: [i32; 2]) -> i128 {
    let [x, y] = [0, 1].map(|c| point[c] - SCALE * i64::from(spot[c]));
    square_sum(x, y)
}

/// `square` of a length, times the scale of squared distances.
pub fn scaled_square(square: i128) -> i128 {
    square * i128::from(SCALE) * i128::from(SCALE)
}

/// A closed smallest cell, its ends times `SCALE`.
struct Cell {
    low: Scaled,
    high: Scaled,
}

impl Cell {
    fn of(job: &Job, column: usize, row: usize) -> Cell {
        let side = 1_i64 << job.m;
        let low = [
            i64::from(job.x) + side * column as i64,
            i64::from(job.y) + side * row as i64,
        ];
        Cell {
            low: low.map(|end| SCALE * end),
            high: low.map(|end| SCALE * (end + side)),
        }
    }

    /// Squared distances from an outline point to the nearest point of the cell
    /// and to the farthest. Distance is convex, so the farthest is a corner.
    fn near_and_far(&self, point: Scaled) -> (i128, i128) {
        let below = [0, 1].map(|c| self.low[c] - point[c]);
        let above = [0, 1].map(|c| point[c] - self.high[c]);
        let [near_x, near_y] = [0, 1].map(|c| below[c].max(above[c]).max(0));
        let [far_x, far_y] = [0, 1].map(|c| below[c].abs().max(above[c].abs()));
        (square_sum(near_x, near_y), square_sum(far_x, far_y))
    }
}

/// What the outline points say of a cell.
#[derive(Clone, Copy)]
pub struct Sight {
    /// Least squared distance of an outline point to the nearest of the cell.
    near: i128,
    /// Least squared distance of an outline point to the farthest of the cell.
    far: i128,
}

impl Sight {
    /// Whether the nearest of the outline points is exactly the reach away.
    pub fn touches(&self, job: &Job) -> bool {
        self.near == scaled_square(i128::from(job.reach).pow(2))
    }

    /// Whether the letter may stand at a cell so seen.
    pub fn allows(&self, job: &Job, letter: u8) -> bool {
        let reach = i128::from(job.reach);
        // Twice E, which is a whole number, and so four times the squares.
        let band = 6 * i128::from(job.grain) + (3 << job.m);
        let inner = (2 * reach - band).max(0);
        let outer = 2 * reach + band;
        match letter {
            b'C' => self.near >= scaled_square(reach * reach),
            b'I' => self.far < scaled_square(reach * reach),
            // One outline point within the band of all four corners serves
            // every point between them.
            b'D' => {
                4 * self.near >= scaled_square(inner * inner)
                    && 4 * self.far <= scaled_square(outer * outer)
            }
            _ => false,
        }
    }
}

/// What these outline points say of each cell, in the order of the map.
pub fn sights(job: &Job, outline: &[Scaled]) -> Vec<Sight> {
    let side = 1_usize << (job.n - job.m);
    (0..side * side)
        .map(|index| {
            let cell = Cell::of(job, index % side, index / side);
            let mut sight = Sight {
                near: i128::MAX,
                far: i128::MAX,
            };
            for &point in outline {
                let (near, far) = cell.near_and_far(point);
                sight.near = sight.near.min(near);
                sight.far = sight.far.min(far);
            }
            sight
        })
        .collect()
}

/// The first cell whose letter demand 3 does not allow.
pub fn fault(job: &Job, sights: &[Sight], letters: &[u8]) -> Option<usize> {
    assert_eq!(sights.len(), letters.len());
    (0..letters.len()).find(|&index| !sights[index].allows(job, letters[index]))
}
