//! What a tree says of a cell.

use clearance_reference::trees::NUMBERS_A_NODE;

/// Where a node has the count of nodes in its subtree. Its box comes behind and
/// is for points alone.
const SUBTREE_COUNT: usize = 6;

/// Of a node by itself, or of a tree.
#[derive(Clone, Copy, PartialEq, Eq)]
pub enum Answer {
    Away,
    Maybe,
    Inside,
}

/// Above every root of a legal job's axis, and its square fits 64 bits.
const ROOT_CAP: i64 = 1 << 30;

/// Whether cross ≥ r·L, with L the least whole number whose square is at least
/// `square`. That is L ≤ k with k = cross / r, so square ≤ k². No L is below
/// `low`, which settles most cases without the division. Without an axis, where
/// the square is 0, nothing lies across; that is asked last.
fn is_beyond(cross: i64, r: i64, low: i64, square: i64) -> bool {
    if cross < r * low {
        return false;
    }
    let k = (cross / r).min(ROOT_CAP);
    square != 0 && square <= k * k
}

/// What one node says by itself of the cell at (x, y) with half side s.
fn own_answer(node: &[i32; NUMBERS_A_NODE], x: i64, y: i64, s: i64, r: i64) -> Answer {
    let [zx, zy, p, q, bx, by, ..] = node.map(i64::from);
    let (wx, wy) = (x - zx, y - zy);
    let (a, b) = (bx + s, by + s);
    let (far_x, far_y) = (wx.abs() + p.abs() + a, wy.abs() + q.abs() + b);
    if far_x * far_x + far_y * far_y < r * r {
        return Answer::Inside;
    }
    let gap_x = (wx.abs() - p.abs() - a).max(0);
    let gap_y = (wy.abs() - q.abs() - b).max(0);
    if gap_x * gap_x + gap_y * gap_y >= r * r {
        return Answer::Away;
    }
    let cross = (wx * q - wy * p).abs() - a * q.abs() - b * p.abs();
    if is_beyond(cross, r, p.abs().max(q.abs()), p * p + q * q) {
        return Answer::Away;
    }
    Answer::Maybe
}

/// What the tree in `part` says, from one node after the other in the order of
/// the store. A node that is away is stepped past with its subtree; the halves
/// of one that is maybe stand right behind it. No node answers above `enough`.
pub fn search(part: &[i32], x: i64, y: i64, s: i64, r: i64, enough: Answer) -> Answer {
    let mut found = Answer::Away;
    let mut at = 0;
    while let Some(node) = part[at..].first_chunk() {
        match own_answer(node, x, y, s, r) {
            Answer::Inside => return Answer::Inside,
            Answer::Away => at += tree_length(part, at),
            Answer::Maybe => {
                if tree_length(part, at) == NUMBERS_A_NODE {
                    if enough == Answer::Maybe {
                        return Answer::Maybe;
                    }
                    found = Answer::Maybe;
                }
                at += NUMBERS_A_NODE;
            }
        }
    }
    found
}

/// The numbers of the tree that starts here.
pub fn tree_length(store: &[i32], start: usize) -> usize {
    NUMBERS_A_NODE * store[start + SUBTREE_COUNT] as usize
}

/// The answer above which no node goes: where the cell alone reaches too far,
/// none can be inside, and the first maybe leaf settles a tree.
pub fn enough_for(s: i64, r: i64) -> Answer {
    if 2 * s * s >= r * r {
        Answer::Maybe
    } else {
        Answer::Inside
    }
}
