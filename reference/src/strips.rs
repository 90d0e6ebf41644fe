//! The strip of a piece of an edge: RULES, "Strips".

use crate::edge::Edge;

/// Greatest depth a piece may have.
pub const DEEPEST: u32 = 10;

/// A stretch of an edge's parameter: one of the `2^depth` equal parts.
#[derive(Clone, Copy, Debug, PartialEq, Eq)]
pub struct Piece {
    depth: u32,
    index: u32,
}

impl Piece {
    /// The whole edge.
    pub const WHOLE: Piece = Piece { depth: 0, index: 0 };

    /// The two halves in the order of the parameter, or `None` at the greatest
    /// depth.
    pub fn halves(self) -> Option<[Piece; 2]> {
        if self.depth == DEEPEST {
            return None;
        }
        let depth = self.depth + 1;
        let index = 2 * self.index;
        Some([index, index + 1].map(|index| Piece { depth, index }))
    }

    /// How many halvings lead to this piece.
    pub fn depth(self) -> u32 {
        self.depth
    }

    /// Which of the parts of its depth it is, from 0.
    pub fn index(self) -> u32 {
        self.index
    }
}

/// A segment and the box that widens it, in fine units. Index 0 is x and 1 is y.
#[derive(Clone, Copy, Debug, PartialEq, Eq)]
pub struct Strip {
    /// The middle of the segment.
    pub centre: [i64; 2],
    /// From the middle to the segment's end.
    pub axis: [i64; 2],
    /// The half sides of the widening box.
    pub half_box: [i64; 2],
}

impl Strip {
    /// The strip of a piece of an edge, whose numbers may be any at all.
    pub fn of(edge: &Edge, piece: Piece) -> Strip {
        let sides = match *edge {
            Edge::Cubic([x0, y0, x1, y1, x2, y2, x3, y3]) => [
                Side::of_cubic([x0, x1, x2, x3], piece),
                Side::of_cubic([y0, y1, y2, y3], piece),
            ],
            Edge::Line([x0, y0, x1, y1]) => [
                Side::of_line([x0, x1], piece),
                Side::of_line([y0, y1], piece),
            ],
        };
        Strip {
            centre: sides.map(|side| side.centre),
            axis: sides.map(|side| side.axis),
            half_box: sides.map(|side| side.half_box),
        }
    }

    /// Half sides of the upright box around the strip.
    pub fn extent(&self) -> [i64; 2] {
        [0, 1].map(|c| self.axis[c].abs() + self.half_box[c])
    }

    /// Whether the piece needs no halving at this grain.
    pub fn is_short(&self, grain: i32) -> bool {
        let limit = 16 * i64::from(grain);
        self.extent().iter().all(|&half| half <= limit)
    }
}

/// One coordinate of a strip, in fine units.
#[derive(Clone, Copy)]
struct Side {
    centre: i64,
    axis: i64,
    half_box: i64,
}

impl Side {
    /// The coefficient `axis` belongs to the parameter itself, which x and y
    /// share; `second` and `third` belong to the noise symbols that stand for
    /// the rests of its square and cube. Both are taken at full swing, and the
    /// pad makes up for the roundings.
    fn of_cubic(controls: [i32; 4], piece: Piece) -> Side {
        let [a0, a1, a2, a3] = shifted_coefficients(controls, piece);
        let cube = steps(piece).pow(3);
        let numerators = [16 * a0 + 8 * a2, 16 * a1 + 12 * a3, 8 * a2, 4 * a3];
        let [centre, axis, second, third] = numerators.map(|number| nearest(number, cube));
        Side {
            centre,
            axis,
            half_box: second.abs() + third.abs() + cubic_pad(remainders(&numerators, cube)),
        }
    }

    /// A line's middle and half have no noise. Each quotient that is not whole
    /// adds 1, more than its rounding takes off.
    fn of_line(ends: [i32; 2], piece: Piece) -> Side {
        let [first, second] = ends.map(i128::from);
        let n = steps(piece);
        let middle = 16 * (first * n + (second - first) * middle_step(piece));
        let half = 16 * (second - first);
        Side {
            centre: nearest(middle, n),
            axis: nearest(half, n),
            half_box: remainders(&[middle, half], n),
        }
    }
}

/// How many of these quotients leave a remainder. A whole one is not rounded,
/// so it needs nothing made up.
fn remainders(numerators: &[i128], denominator: i128) -> i64 {
    let leaves_one = |&&number: &&i128| number % denominator != 0;
    numerators.iter().filter(leaves_one).count() as i64
}

/// Each rounding is off by a half at most, and a box is whole: half the count
/// of a cubic's remainders, up to the next whole number.
fn cubic_pad(remainders: i64) -> i64 {
    (remainders + 1) / 2
}

/// The half steps of the parameter at a piece's depth.
fn steps(piece: Piece) -> i128 {
    1 << (piece.depth + 1)
}

/// How many of these lie before the middle of a piece.
fn middle_step(piece: Piece) -> i128 {
    2 * i128::from(piece.index) + 1
}

/// The power form about the middle of a piece, all times the cube of the steps.
fn shifted_coefficients(controls: [i32; 4], piece: Piece) -> [i128; 4] {
    let [b0, b1, b2, b3] = controls.map(i128::from);
    let c0 = b0;
    let c1 = 3 * (b1 - b0);
    let c2 = 3 * (b0 - 2 * b1 + b2);
    let c3 = b3 - 3 * b2 + 3 * b1 - b0;
    let n = steps(piece);
    let m = middle_step(piece);
    [
        c0 * n * n * n + c1 * n * n * m + c2 * n * m * m + c3 * m * m * m,
        c1 * n * n + 2 * c2 * n * m + 3 * c3 * m * m,
        c2 * n + 3 * c3 * m,
        c3,
    ]
}

/// The nearest whole number to a quotient, the greater one for a half. It is
/// the floor of the quotient plus a half, and Euclidean division by a positive
/// number is that floor. From 32-bit numbers the result is below 2^40.
fn nearest(numerator: i128, denominator: i128) -> i64 {
    (2 * numerator + denominator).div_euclid(2 * denominator) as i64
}

#[cfg(test)]
mod tests {
    use super::{cubic_pad, nearest, remainders};

    #[test]
    fn halves_go_up_on_both_sides_of_zero() {
        let quarters = [-8, -7, -6, -5, -4, -3, -2, -1, 0, 1, 2, 3, 4, 5, 6, 7, 8];
        let wanted = [-2, -2, -1, -1, -1, -1, 0, 0, 0, 0, 1, 1, 1, 1, 2, 2, 2];
        assert_eq!(quarters.map(|number| nearest(number, 4)), wanted);
    }

    #[test]
    fn remainders_on_both_sides_of_zero() {
        let count = |number| remainders(&[number], 4);
        assert_eq!([-8, -4, 0, 4, 8].map(count), [0; 5]);
        assert_eq!([-7, -6, -5, -3, -1, 1, 2, 3, 5].map(count), [1; 9]);
        assert_eq!(remainders(&[-8, -7, 0, 6, 1], 4), 3);
        assert_eq!(remainders(&[], 4), 0);
    }

    #[test]
    fn a_pad_is_half_the_remainders_and_goes_up() {
        assert_eq!([0, 1, 2, 3, 4].map(cubic_pad), [0, 1, 1, 2, 2]);
    }
}
