//! Which letters of a map are wrong, found without strips or trees. Nothing is
//! counted that is not certain:
//! - a C is wrong if an outline point at some k/4096 is nearer than the reach
//!   to the closed cell; one at the reach exactly is no fault. That is settled in
//!   whole numbers.
//! - an I is wrong if some point of the cell has no outline point nearer than
//!   the reach. That is settled in floats with a margin: all numbers are below
//!   2^22, so a distance is off by less than 2^-20, and `SLACK` is above that.
//!
//! The pieces of an edge are halved until their distance is known: with v the
//! velocity at the middle and A a bound of the second derivative, a piece of
//! parameter length h stays within |v|·h/2 + A·h²/8 of its middle.

use crate::sampling::edge_point;
use clearance_reference::{Edge, Job};

/// Exact outline points are those at k/4096.
const STEPS_EXPONENT: u32 = 12;
const STEPS: i64 = 1 << STEPS_EXPONENT;
/// Exact points are kept times this.
const SCALE: i64 = STEPS * STEPS * STEPS;
/// Pieces are halved so often at most for a wrong I.
const DEEPEST: u32 = 24;
const SLACK: f64 = 1e-5;

/// How many cells have a letter that is certainly wrong.
#[derive(Clone, Copy, Debug, Default, PartialEq, Eq)]
pub struct Wrong {
    /// Called clear though the outline comes nearer than the reach.
    pub clear: usize,
    /// Called inside though some point of the cell has no outline point nearer
    /// than the reach.
    pub inside: usize,
}

/// Counts the wrong letters of a legal job's map.
pub fn wrong_cells(job: &Job, letters: &[u8]) -> Wrong {
    let curves: Vec<Curve> = job.edges().map(Curve::of).collect();
    let side = 1_usize << (job.n - job.m);
    let mut wrong = Wrong::default();
    for (index, letter) in letters.iter().enumerate() {
        let cell = Cell::of(job, index % side, index / side);
        match letter {
            b'C' => wrong.clear += usize::from(comes_near(job, &curves, &cell)),
            b'I' => wrong.inside += usize::from(is_partly_out(job, &curves, &cell)),
            _ => {}
        }
    }
    wrong
}

/// An edge, with a bound of its second derivative.
struct Curve {
    edge: Edge,
    bend: f64,
}

/// A stretch of the parameter: from k/2^depth to (k + 1)/2^depth.
#[derive(Clone, Copy)]
struct Piece {
    depth: u32,
    k: i64,
}

impl Piece {
    const WHOLE: Piece = Piece { depth: 0, k: 0 };

    fn halves(self) -> [Piece; 2] {
        let depth = self.depth + 1;
        [2 * self.k, 2 * self.k + 1].map(|k| Piece { depth, k })
    }

    fn length(self) -> f64 {
        1.0 / (1_u64 << self.depth) as f64
    }

    fn middle(self) -> f64 {
        (self.k as f64 + 0.5) * self.length()
    }
}

impl Curve {
    fn of(edge: Edge) -> Curve {
        let bend = match edge {
            Edge::Cubic(controls) => cubic_bend(controls),
            Edge::Line(_) => 0.0,
        };
        Curve { edge, bend }
    }

    /// The speed at a parameter.
    fn speed(&self, t: f64) -> f64 {
        match self.edge {
            Edge::Cubic(controls) => cubic_speed(controls, t),
            Edge::Line([x0, y0, x1, y1]) => f64::from(x1 - x0).hypot(f64::from(y1 - y0)),
        }
    }

    /// How far the piece may stray from its middle.
    fn radius(&self, piece: Piece) -> f64 {
        let half = piece.length() / 2.0;
        self.speed(piece.middle()) * half + self.bend * half * half / 2.0
    }

    /// The point at k/4096, times `SCALE`: whole numbers, below 2^59.
    fn exact_point(&self, k: i64) -> [i64; 2] {
        let l = STEPS - k;
        match &self.edge {
            Edge::Cubic(controls) => {
                let weights = [l * l * l, 3 * k * l * l, 3 * k * k * l, k * k * k];
                weighted(&weights, controls)
            }
            Edge::Line(ends) => weighted(&[l * STEPS * STEPS, k * STEPS * STEPS], ends),
        }
    }
}

/// Points, x and y in turn, with a whole weight each.
fn weighted(weights: &[i64], points: &[i32]) -> [i64; 2] {
    [0, 1].map(|c| {
        let numbers = points[c..].iter().step_by(2);
        let terms = weights.iter().zip(numbers);
        terms
            .map(|(weight, &number)| weight * i64::from(number))
            .sum()
    })
}

/// A bound of a cubic's second derivative.
fn cubic_bend(controls: [i32; 8]) -> f64 {
    let b = controls.map(f64::from);
    let second = |i: usize| {
        let [x, y] = [0, 1].map(|c| b[i + c] - 2.0 * b[i + 2 + c] + b[i + 4 + c]);
        x.hypot(y)
    };
    6.0 * second(0).max(second(2))
}

fn cubic_speed(controls: [i32; 8], t: f64) -> f64 {
    let b = controls.map(f64::from);
    let l = 1.0 - t;
    let weights = [l * l, 2.0 * t * l, t * t];
    let [x, y] = [0, 1].map(|c| {
        let steps = (0..3).map(|i| weights[i] * (b[2 * i + 2 + c] - b[2 * i + c]));
        3.0 * steps.sum::<f64>()
    });
    x.hypot(y)
}

/// A closed smallest cell.
struct Cell {
    low: [i64; 2],
    high: [i64; 2],
}

impl Cell {
    fn of(job: &Job, column: usize, row: usize) -> Cell {
        let side = 1_i64 << job.m;
        let low = [
            i64::from(job.x) + side * column as i64,
            i64::from(job.y) + side * row as i64,
        ];
        Cell {
            low,
            high: low.map(|end| end + side),
        }
    }

    fn distance(&self, point: [f64; 2]) -> f64 {
        let [x, y] = [0, 1].map(|c| {
            let below = self.low[c] as f64 - point[c];
            let above = point[c] - self.high[c] as f64;
            below.max(above).max(0.0)
        });
        x.hypot(y)
    }

    /// Whether an exact outline point is nearer than the reach.
    fn has_near(&self, point: [i64; 2], reach: i32) -> bool {
        let [x, y] = [0, 1].map(|c| {
            let below = SCALE * self.low[c] - point[c];
            let above = point[c] - SCALE * self.high[c];
            i128::from(below.max(above).max(0))
        });
        let reach = i128::from(reach) * i128::from(SCALE);
        x * x + y * y < reach * reach
    }

    /// The corners, the middles of the sides and the centre.
    fn spots(&self) -> impl Iterator<Item = [f64; 2]> + '_ {
        let ends = |c: usize| {
            let [low, high] = [self.low[c] as f64, self.high[c] as f64];
            [low, (low + high) / 2.0, high]
        };
        let rows = ends(1);
        ends(0).into_iter().flat_map(move |x| rows.map(|y| [x, y]))
    }
}

/// Whether some exact outline point is nearer than the reach to the cell.
fn comes_near(job: &Job, curves: &[Curve], cell: &Cell) -> bool {
    curves.iter().any(|curve| {
        [0, STEPS]
            .into_iter()
            .any(|end| cell.has_near(curve.exact_point(end), job.reach))
            || piece_comes_near(curve, Piece::WHOLE, cell, job.reach)
    })
}

fn piece_comes_near(curve: &Curve, piece: Piece, cell: &Cell, reach: i32) -> bool {
    let distance = cell.distance(edge_point(&curve.edge, piece.middle()));
    if distance > f64::from(reach) + curve.radius(piece) + SLACK {
        return false;
    }
    let k = (2 * piece.k + 1) << (STEPS_EXPONENT - piece.depth - 1);
    if distance < f64::from(reach) + SLACK && cell.has_near(curve.exact_point(k), reach) {
        return true;
    }
    piece.depth + 1 < STEPS_EXPONENT
        && piece
            .halves()
            .into_iter()
            .any(|half| piece_comes_near(curve, half, cell, reach))
}

/// Whether some point of the cell is certainly farther than the reach from all
/// the outline.
fn is_partly_out(job: &Job, curves: &[Curve], cell: &Cell) -> bool {
    cell.spots().any(|spot| {
        curves
            .iter()
            .all(|curve| piece_stays_off(curve, Piece::WHOLE, spot, f64::from(job.reach)))
    })
}

fn piece_stays_off(curve: &Curve, piece: Piece, spot: [f64; 2], reach: f64) -> bool {
    let [x, y] = edge_point(&curve.edge, piece.middle());
    let distance = (x - spot[0]).hypot(y - spot[1]);
    if distance > reach + curve.radius(piece) + SLACK {
        return true;
    }
    // Near, or too near to be sure: then nothing is counted.
    if distance < reach + SLACK || piece.depth == DEEPEST {
        return false;
    }
    piece
        .halves()
        .into_iter()
        .all(|half| piece_stays_off(curve, half, spot, reach))
}
