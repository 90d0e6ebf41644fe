//! Point lookups again, apart from those of the crate: the bounds by asking
//! every leaf's strip, also edge by edge from a store, and the reads by stepping
//! through the numbers of a store.

use clearance_reference::strips::Strip;
use clearance_reference::trees::Tree;

/// The bounds over all leaves, in fine units squared.
pub struct Plain {
    pub lo: i128,
    pub hi: i128,
    /// Every edge with a leaf that attains `hi`, in job order.
    pub edges: Vec<usize>,
}

/// Asks every leaf; the spot is in hundredths of a millimetre.
pub fn plain_lookup(trees: &[Tree], spot: [i32; 2]) -> Plain {
    let mut bounds = Vec::new();
    for (edge, tree) in trees.iter().enumerate() {
        for strip in leaves(tree) {
            let (lo, hi) = strip_bounds(strip, spot);
            bounds.push((edge, lo, hi));
        }
    }
    let lo = bounds.iter().map(|&(_, lo, _)| lo).min().unwrap();
    let hi = bounds.iter().map(|&(_, _, hi)| hi).min().unwrap();
    bounds.retain(|bound| bound.2 == hi);
    let mut edges: Vec<usize> = bounds.iter().map(|&(edge, ..)| edge).collect();
    edges.dedup();
    Plain { lo, hi, edges }
}

/// The strips of a tree's leaves, from left to right.
pub fn leaves(tree: &Tree) -> Vec<&Strip> {
    let mut found = Vec::new();
    let mut waiting = vec![tree];
    while let Some(tree) = waiting.pop() {
        match tree.halves() {
            None => found.push(tree.strip()),
            Some([left, right]) => waiting.extend([right, left]),
        }
    }
    found
}

/// The four corners of the upright box around a strip.
pub fn corners(strip: &Strip) -> [[i64; 2]; 4] {
    [[-1, -1], [1, -1], [-1, 1], [1, 1]].map(|signs| {
        [0, 1].map(|c| strip.centre[c] + signs[c] * (strip.axis[c].abs() + strip.half_box[c]))
    })
}

/// The squared distances to the box's nearest point, which is the spot moved
/// into the box, and to the farthest, which is a corner.
fn strip_bounds(strip: &Strip, spot: [i32; 2]) -> (i128, i128) {
    let spot = spot.map(|number| 16 * i64::from(number));
    let corners = corners(strip);
    let [least, .., greatest] = corners;
    let moved = [0, 1].map(|c| spot[c].clamp(least[c], greatest[c]));
    let far = corners.map(|corner| squared_length(spot, corner));
    (
        squared_length(spot, moved),
        far.into_iter().max().unwrap_or_default(),
    )
}

fn squared_length(from: [i64; 2], to: [i64; 2]) -> i128 {
    let [x, y] = [0, 1].map(|c| i128::from(to[c]) - i128::from(from[c]));
    x * x + y * y
}

/// lo and hi by the definition, straight from the centres, axes and boxes of the
/// leaves in a store.
pub fn bounds_from_store(store: &[i32], spot: [i32; 2]) -> (i64, i64) {
    let (mut lo, mut hi) = (i64::MAX, i64::MAX);
    for node in store.chunks(11).filter(|node| node[6] == 1) {
        let node: Vec<i64> = node.iter().copied().map(i64::from).collect();
        let (mut near, mut far) = (0, 0);
        for c in 0..2 {
            let offset = (16 * i64::from(spot[c]) - node[c]).abs();
            let half = node[2 + c].abs() + node[4 + c];
            near += (offset - half).max(0).pow(2);
            far += (offset + half).pow(2);
        }
        (lo, hi) = (lo.min(near), hi.min(far));
    }
    (lo, hi)
}

/// The same of each edge by itself, in job order.
pub fn bounds_by_edge(store: &[i32], spot: [i32; 2]) -> Vec<(i64, i64)> {
    let mut bounds = Vec::new();
    let mut rest = store;
    while let Some(root) = rest.first_chunk::<11>() {
        let (tree, others) = rest.split_at(11 * root[6] as usize);
        bounds.push(bounds_from_store(tree, spot));
        rest = others;
    }
    assert!(rest.is_empty());
    bounds
}

/// What stepping through a store came to.
#[derive(Clone, Copy, Debug, PartialEq, Eq)]
pub struct Steps {
    /// The nodes looked at.
    pub reads: usize,
    /// Those passed over with what lies under them.
    pub skipped: usize,
    /// Those of them with halves and exactly as near as the least hi.
    pub ties: usize,
}

/// Steps through a store from node to node, past the whole subtree where the
/// box, by the numbers of the store, is no nearer than the least hi.
pub fn step_through(store: &[i32], spot: [i32; 2]) -> Steps {
    let spot = spot.map(|number| 16 * i128::from(number));
    let mut steps = Steps {
        reads: 0,
        skipped: 0,
        ties: 0,
    };
    let mut least_hi: Option<i128> = None;
    let mut rest = store;
    while let Some(node) = rest.first_chunk::<11>() {
        let [.., nodes, x0, y0, x1, y1] = node.map(i128::from);
        let sides = [(spot[0], x0, x1), (spot[1], y0, y1)];
        let [near_x, near_y] = sides.map(|(s, a, b)| s - s.clamp(a, b));
        let [far_x, far_y] = sides.map(|(s, a, b)| (s - a).max(b - s));
        let near = near_x.pow(2) + near_y.pow(2);
        steps.reads += 1;
        let step = match least_hi {
            Some(hi) if hi <= near => {
                steps.skipped += 1;
                steps.ties += usize::from(hi == near && nodes > 1);
                nodes as usize
            }
            _ => 1,
        };
        if step == 1 && nodes == 1 {
            let far = far_x.pow(2) + far_y.pow(2);
            least_hi = Some(least_hi.map_or(far, |hi| hi.min(far)));
        }
        rest = &rest[11 * step..];
    }
    assert!(rest.is_empty());
    steps
}
