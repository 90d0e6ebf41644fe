//! Bounds on the distance of a point, and how they are looked up: RULES,
//! "Distance" and "Lookup".
//!
//! The lookup passes over what a box shows to be too far, and still gives the
//! bounds and the first edge of a lookup that asks every leaf. Call h the least
//! hi so far. It belongs to a leaf already asked, whose lo is no more than its
//! hi, so the least lo so far is at most h. Every leaf below a skipped node has
//! its box in that node's, so its lo is at least h, and its hi is no less than
//! its lo. So neither bound would become less, and as h is not undercut, the edge
//! would stay the same.

use crate::trees::Tree;

/// The bounds, in fine units squared.
#[derive(Clone, Copy, Debug, PartialEq, Eq)]
pub struct Nearest {
    /// No point of the outline is nearer than this.
    pub lo: i64,
    /// Some point of the outline is no farther than this.
    pub hi: i64,
    /// The first edge in job order, counted from 0, of whose leaves one attains
    /// `hi`. Callers may count on it.
    pub edge: usize,
}

impl Nearest {
    /// lo, hi and the edge, as a reply has them.
    pub fn numbers(&self) -> [i64; 3] {
        // There are 64 edges at most.
        [self.lo, self.hi, self.edge as i64]
    }
}

/// The bounds, and what it took to find them.
#[derive(Clone, Copy, Debug, PartialEq, Eq)]
pub struct Lookup {
    /// The bounds themselves.
    pub nearest: Nearest,
    /// The nodes looked at, each once. Skipped nodes are among them; those
    /// below a skipped node are not.
    pub reads: usize,
}

/// The bounds for a spot in hundredths of a millimetre; `None` without edges.
/// The trees are gone through in the order of the store, so the first edge that
/// attains hi is met before the others that do. The spot is in range, which the
/// entries see to, so its squares fit 64 bits.
pub fn lookup(trees: &[Tree], x: i32, y: i32) -> Option<Lookup> {
    let mut search = Search {
        spot: [x, y].map(|number| 16 * i64::from(number)),
        best: None,
        reads: 0,
    };
    for (edge, tree) in trees.iter().enumerate() {
        search.visit(edge, tree);
    }
    let reads = search.reads;
    search.best.map(|nearest| Lookup { nearest, reads })
}

/// A lookup under way. All trees share one, so that what an edge has shown
/// serves the edges after it.
struct Search {
    /// The spot in fine units.
    spot: [i64; 2],
    /// The bounds of the leaves so far; `None` before the first.
    best: Option<Nearest>,
    reads: usize,
}

impl Search {
    /// Reads a node, and unless it is skipped what lies below it.
    fn visit(&mut self, edge: usize, tree: &Tree) {
        self.reads += 1;
        let near = tree.upright_box().nearest_square(self.spot);
        if self.best.is_some_and(|best| near >= best.hi) {
            return;
        }
        match tree.halves() {
            Some(halves) => {
                for half in halves {
                    self.visit(edge, half);
                }
            }
            None => {
                let far = tree.upright_box().farthest_square(self.spot);
                self.take(edge, near, far);
            }
        }
    }

    /// Joins the bounds of one leaf to those so far. An edge that only equals the
    /// least hi is not the first to attain it.
    fn take(&mut self, edge: usize, lo: i64, hi: i64) {
        self.best = Some(match self.best {
            None => Nearest { lo, hi, edge },
            Some(old) => Nearest {
                lo: old.lo.min(lo),
                hi: old.hi.min(hi),
                edge: if hi < old.hi { edge } else { old.edge },
            },
        });
    }
}
