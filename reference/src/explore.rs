//! A cell against the trees: the tests and the joining of answers in RULES,
//! "Explore".

use crate::strips::Strip;
use crate::trees::Tree;

/// A square of the plate, in fine units.
#[derive(Clone, Copy, Debug)]
pub struct Cell {
    /// Its middle.
    pub centre: [i64; 2],
    /// Half its side.
    pub half_side: i64,
}

/// What a strip, a tree or the whole outline says of a cell.
#[derive(Clone, Copy, Debug, PartialEq, Eq)]
pub enum Answer {
    /// Nothing of it is nearer than the reach to any of the cell.
    Away,
    /// One strip of it is nearer than the reach to all the cell.
    Inside,
    /// Neither is known.
    Maybe,
}

impl Answer {
    /// The answer of two parts together.
    fn join(self, other: Answer) -> Answer {
        match (self, other) {
            (Answer::Inside, _) | (_, Answer::Inside) => Answer::Inside,
            (Answer::Away, Answer::Away) => Answer::Away,
            _ => Answer::Maybe,
        }
    }
}

/// What the whole outline says of a cell; `reach` is in fine units.
pub fn outline_answer(cell: Cell, trees: &[Tree], reach: i64) -> Answer {
    trees
        .iter()
        .map(|tree| tree_answer(cell, tree, reach))
        .fold(Answer::Away, Answer::join)
}

/// What one tree says. A node that cannot tell always asks both its halves,
/// since their strips need not lie in its own.
fn tree_answer(cell: Cell, tree: &Tree, reach: i64) -> Answer {
    match (strip_answer(cell, tree.strip(), reach), tree.halves()) {
        (Answer::Maybe, Some([left, right])) => {
            tree_answer(cell, left, reach).join(tree_answer(cell, right, reach))
        }
        (answer, _) => answer,
    }
}

/// What one strip says by itself; `r` is the reach in fine units, from 1 up.
///
/// No cell is both inside and away, also where a test comes out equal. Inside
/// puts the middles of cell and strip nearer than r. The gap is no longer than
/// the way between them, and the cross product with an axis that is not (0, 0)
/// is below r times its length, so neither away test is met.
pub fn strip_answer(cell: Cell, strip: &Strip, r: i64) -> Answer {
    let [wx, wy] = [0, 1].map(|c| cell.centre[c] - strip.centre[c]);
    let [a, b] = strip.half_box.map(|half| half + cell.half_side);
    let [p, q] = strip.axis;

    let farthest_x = wx.abs() + p.abs() + a;
    let farthest_y = wy.abs() + q.abs() + b;
    if farthest_x * farthest_x + farthest_y * farthest_y < r * r {
        return Answer::Inside;
    }

    let gap_x = (wx.abs() - p.abs() - a).max(0);
    let gap_y = (wy.abs() - q.abs() - b).max(0);
    if gap_x * gap_x + gap_y * gap_y >= r * r {
        return Answer::Away;
    }

    // The same across the strip's slant: the cross product with the axis, less
    // what the cell and the box can take off it. An axis of (0, 0) has no slant:
    // 0 is at least 0 however near the cell is, so the test must not be asked.
    let across = (wx * q - wy * p).abs() - a * q.abs() - b * p.abs();
    if [p, q] != [0, 0] && across >= r * least_root(p * p + q * q) {
        return Answer::Away;
    }
    Answer::Maybe
}

/// The least whole number whose square is at least this one, which is not
/// negative.
fn least_root(square: i64) -> i64 {
    let root = square.isqrt();
    if root * root < square {
        root + 1
    } else {
        root
    }
}

#[cfg(test)]
mod tests {
    use super::{least_root, Answer};

    #[test]
    fn roots_are_the_least_that_suffice() {
        for square in (0..2_000).chain(647_999_999_999_000..648_000_000_001_000) {
            let root = least_root(square);
            assert!(root * root >= square);
            assert!(root == 0 || (root - 1) * (root - 1) < square);
        }
    }

    #[test]
    fn joined_answers() {
        use Answer::{Away, Inside, Maybe};
        for answer in [Away, Inside, Maybe] {
            assert_eq!(Away.join(answer), answer);
            assert_eq!(answer.join(Away), answer);
            assert_eq!(Inside.join(answer), Inside);
            assert_eq!(answer.join(Inside), Inside);
        }
        assert_eq!(Maybe.join(Maybe), Maybe);
    }
}
