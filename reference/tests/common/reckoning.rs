//! The strip of a cubic's piece worked out another way. The control numbers are
//! halved down to the piece, and every quotient comes from the piece's own four
//! numbers; no power form and no shift to a middle is used.

use clearance_reference::strips::{Piece, Strip};
use clearance_reference::trees::{grow, Tree};
use clearance_reference::{Edge, Job};

/// One coordinate of a cubic's piece, in fine units.
#[derive(Clone, Copy, Debug, PartialEq, Eq)]
pub struct Reckoned {
    pub centre: i64,
    pub axis: i64,
    /// What both noise symbols come to at full swing.
    pub noise: i64,
    /// How many of the four quotients are not whole.
    pub remainders: usize,
}

impl Reckoned {
    /// Both coordinates of a cubic's piece; `None` for a line.
    pub fn both(edge: &Edge, piece: Piece) -> Option<[Reckoned; 2]> {
        let Edge::Cubic([x0, y0, x1, y1, x2, y2, x3, y3]) = *edge else {
            return None;
        };
        Some([[x0, x1, x2, x3], [y0, y1, y2, y3]].map(|controls| Reckoned::of(controls, piece)))
    }

    /// With e running from -1 to 1 the coordinate is the sum over p0 to p3 of
    /// (1 - e)³, 3(1 + e)(1 - e)², 3(1 + e)²(1 - e) and (1 + e)³, all by 8. The
    /// powers of e have the coefficients
    /// (p0 + 3 p1 + 3 p2 + p3)/8, 3(-p0 - p1 + p2 + p3)/8,
    /// 3(p0 - p1 - p2 + p3)/8 and (-p0 + 3 p1 - 3 p2 + p3)/8.
    fn of(controls: [i32; 4], piece: Piece) -> Reckoned {
        let [p0, p1, p2, p3] = piece_controls(controls, piece);
        // The four quotients times 2 and the scale of the piece's numbers.
        let numerators = [
            2 * (5 * p0 + 3 * p1 + 3 * p2 + 5 * p3),
            -15 * p0 - 3 * p1 + 3 * p2 + 15 * p3,
            6 * (p0 - p1 - p2 + p3),
            -p0 + 3 * p1 - 3 * p2 + p3,
        ];
        let scale = 2 * 8_i128.pow(piece.depth());
        let [centre, axis, second, third] = numerators.map(|number| half_up(number, scale));
        let exact = [centre, axis, second, third].map(|number| i128::from(number) * scale);
        Reckoned {
            centre,
            axis,
            noise: second.abs() + third.abs(),
            remainders: (0..4).filter(|&q| exact[q] != numerators[q]).count(),
        }
    }

    /// The pad that goes with so many remainders, from a table.
    pub fn pad(&self) -> i64 {
        [0, 1, 1, 2, 2][self.remainders]
    }
}

/// A cubic's strip must be the one reckoned here.
pub fn check_strip(edge: &Edge, piece: Piece, strip: &Strip) {
    let Some(sides) = Reckoned::both(edge, piece) else {
        return;
    };
    let wanted = Strip {
        centre: sides.map(|side| side.centre),
        axis: sides.map(|side| side.axis),
        half_box: sides.map(|side| side.noise + side.pad()),
    };
    assert_eq!(*strip, wanted, "{edge:?} {piece:?}");
}

/// How many coordinates of the strips of a job's cubics have 0, 1, 2, 3 and 4
/// remainders.
pub fn remainder_counts(job: &Job) -> [usize; 5] {
    let mut counts = [0; 5];
    for (edge, tree) in job.edges().zip(grow(job).unwrap_or_default()) {
        count_remainders(&edge, Piece::WHOLE, &tree, &mut counts);
    }
    counts
}

fn count_remainders(edge: &Edge, piece: Piece, tree: &Tree, counts: &mut [usize; 5]) {
    for side in Reckoned::both(edge, piece).into_iter().flatten() {
        counts[side.remainders] += 1;
    }
    if let (Some(halves), Some(pieces)) = (tree.halves(), piece.halves()) {
        for (half, piece) in halves.iter().zip(pieces) {
            count_remainders(edge, piece, half, counts);
        }
    }
}

/// The control numbers of a piece, times 8 for each halving. The bits of its
/// index, from the highest, tell left from right.
pub fn piece_controls(controls: [i32; 4], piece: Piece) -> [i128; 4] {
    let mut halved = controls.map(i128::from);
    for level in (0..piece.depth()).rev() {
        halved = if piece.index() >> level & 1 == 0 {
            left_half(halved)
        } else {
            reversed(left_half(reversed(halved)))
        };
    }
    halved
}

fn left_half([b0, b1, b2, b3]: [i128; 4]) -> [i128; 4] {
    [
        8 * b0,
        4 * (b0 + b1),
        2 * (b0 + 2 * b1 + b2),
        b0 + 3 * b1 + 3 * b2 + b3,
    ]
}

fn reversed([b0, b1, b2, b3]: [i128; 4]) -> [i128; 4] {
    [b3, b2, b1, b0]
}

/// The nearest whole number; of two as near the greater.
fn half_up(numerator: i128, denominator: i128) -> i64 {
    let below = numerator.div_euclid(denominator);
    let rest = numerator - below * denominator;
    i64::try_from(below + i128::from(2 * rest >= denominator)).unwrap()
}
