//! Whether a store begins with a job's trees: the strips are worked out in 64
//! bits, a piece at a time, and compared number by number as a tree is walked.

use clearance_reference::trees::NUMBERS_A_NODE;
use clearance_reference::{Edge, Job};

/// The depth of the smallest pieces.
const DEEPEST: u32 = 10;

/// The coefficients of one coordinate by powers of the parameter; a line has two.
type Power = [i64; 4];

/// An edge, as its pieces need it.
struct Shape {
    powers: [Power; 2],
    straight: bool,
    /// Half the width and height of a short piece, in fine units.
    limit: i64,
}

/// A piece's strip in one coordinate.
#[derive(Clone, Copy)]
struct Extent {
    centre: i64,
    axis: i64,
    half: i64,
}

/// The least and the greatest number of an upright box in one coordinate.
type Limits = [i32; 2];

/// The nodes of a legal job's trees, or `None` if an edge is long.
pub fn count_nodes(job: &Job) -> Option<usize> {
    job.edges()
        .map(|edge| Shape::of(&edge, job.grain).nodes(0, 0))
        .sum()
}

/// Whether a store that is long enough begins with the trees of a job.
pub fn holds_trees(job: &Job, mut store: &[i32]) -> bool {
    job.edges().all(|edge| {
        let nodes = Shape::of(&edge, job.grain).nodes_in(store, 0, 0);
        store = &store[NUMBERS_A_NODE * nodes.unwrap_or(0)..];
        nodes.is_some()
    })
}

impl Shape {
    fn of(edge: &Edge, grain: i32) -> Shape {
        let place = edge.place().map(i64::from);
        let straight = matches!(edge, Edge::Line(_));
        let powers = [0, 1].map(|c| {
            let [b0, b1, b2, b3] = [0, 2, 4, 6].map(|point| place[point + c]);
            if straight {
                return [b0, b1 - b0, 0, 0];
            }
            let [c1, c2] = [3 * (b1 - b0), 3 * (b0 - 2 * b1 + b2)];
            [b0, c1, c2, b3 - 3 * b2 + 3 * b1 - b0]
        });
        let limit = 16 * i64::from(grain);
        Shape {
            powers,
            straight,
            limit,
        }
    }

    /// The strip of piece k of a depth.
    fn piece(&self, depth: u32, k: i64) -> [Extent; 2] {
        let (n, m) = (2 << depth, 2 * k + 1);
        self.powers.map(|power| {
            if self.straight {
                straight_extent(power, n, m)
            } else {
                curved_extent(power, n, m)
            }
        })
    }

    fn is_short(&self, piece: &[Extent; 2]) -> bool {
        piece.iter().all(|extent| extent.reach() <= self.limit)
    }

    /// The nodes of the subtree of a piece, or `None` if a smallest one is not
    /// short.
    fn nodes(&self, depth: u32, k: i64) -> Option<usize> {
        if self.is_short(&self.piece(depth, k)) {
            return Some(1);
        }
        if depth == DEEPEST {
            return None;
        }
        let left = self.nodes(depth + 1, 2 * k)?;
        Some(1 + left + self.nodes(depth + 1, 2 * k + 1)?)
    }

    /// The nodes of the subtree of a piece with which the part begins, or `None`
    /// if it does not.
    fn nodes_in(&self, part: &[i32], depth: u32, k: i64) -> Option<usize> {
        let (node, below) = part.split_first_chunk()?;
        let piece = self.piece(depth, k);
        if !has_strip(node, &piece) {
            return None;
        }
        if self.is_short(&piece) {
            return has_rest(node, 1, piece.map(Extent::upright)).then_some(1);
        }
        let left = self.nodes_in(below, depth + 1, 2 * k)?;
        let other = &below[NUMBERS_A_NODE * left..];
        let nodes = 1 + left + self.nodes_in(other, depth + 1, 2 * k + 1)?;
        let around = [0, 1].map(|c| around(limits_at(below, c), limits_at(other, c)));
        has_rest(node, nodes, around).then_some(nodes)
    }
}

impl Extent {
    fn reach(&self) -> i64 {
        self.axis.abs() + self.half
    }

    fn upright(self) -> Limits {
        let reach = self.reach();
        [self.centre - reach, self.centre + reach].map(|end| end as i32)
    }
}

/// The whole number nearest to a quotient, and 1 if it is not the quotient.
fn rounded(x: i64, n: i64) -> (i64, i64) {
    let nearest = (2 * x + n).div_euclid(2 * n);
    (nearest, i64::from(nearest * n != x))
}

fn straight_extent([c0, c1, ..]: Power, n: i64, m: i64) -> Extent {
    let (centre, slack) = rounded(16 * (c0 * n + c1 * m), n);
    let (axis, more) = rounded(16 * c1, n);
    let half = slack + more;
    Extent { centre, axis, half }
}

fn curved_extent([c0, c1, c2, c3]: Power, n: i64, m: i64) -> Extent {
    let a0 = c0 * (n * n * n) + c1 * (n * n) * m + c2 * n * (m * m) + c3 * (m * m * m);
    let a1 = c1 * (n * n) + 2 * c2 * n * m + 3 * c3 * (m * m);
    let a2 = c2 * n + 3 * c3 * m;
    let cube = n * n * n;
    let (centre, s0) = rounded(16 * a0 + 8 * a2, cube);
    let (axis, s1) = rounded(16 * a1 + 12 * c3, cube);
    let (second, s2) = rounded(8 * a2, cube);
    let (third, s3) = rounded(4 * c3, cube);
    let half = second.abs() + third.abs() + (s0 + s1 + s2 + s3 + 1) / 2;
    Extent { centre, axis, half }
}

fn has_strip(node: &[i32; NUMBERS_A_NODE], piece: &[Extent; 2]) -> bool {
    piece.iter().enumerate().all(|(c, extent)| {
        i64::from(node[c]) == extent.centre
            && i64::from(node[2 + c]) == extent.axis
            && i64::from(node[4 + c]) == extent.half
    })
}

/// Whether a node has this count and this box.
fn has_rest(node: &[i32; NUMBERS_A_NODE], nodes: usize, around: [Limits; 2]) -> bool {
    let [[x0, x1], [y0, y1]] = around;
    i64::from(node[6]) == nodes as i64 && node[7..] == [x0, y0, x1, y1]
}

fn limits_at(part: &[i32], c: usize) -> Limits {
    [part[7 + c], part[9 + c]]
}

fn around([a0, a1]: Limits, [b0, b1]: Limits) -> Limits {
    [a0.min(b0), a1.max(b1)]
}
