//! The tree of strips of an edge, and the numbers of the store: RULES, "Trees"
//! for the halving and "Store" for the numbers.

use crate::boxes::UprightBox;
use crate::edge::Edge;
use crate::job::{judge, Job};
use crate::refusal::Refusal;
use crate::strips::{Piece, Strip};

/// Numbers in the store for one node.
pub const NUMBERS_A_NODE: usize = 11;
/// Numbers in the store that are enough for every job.
pub const STORE_LIMIT: usize = 64 * 2_047 * NUMBERS_A_NODE;

/// A node and all below it. Trees come only from legal jobs, which is why their
/// numbers fit the store.
#[derive(Clone, Debug, PartialEq, Eq)]
pub struct Tree {
    strip: Strip,
    upright_box: UprightBox,
    nodes: usize,
    halves: Option<Box<[Tree; 2]>>,
}

impl Tree {
    /// The strip of the node itself.
    pub fn strip(&self) -> &Strip {
        &self.strip
    }

    /// The smallest upright box around all the leaves. The strip of a node that
    /// has halves may reach past it, or fall short of it.
    pub fn upright_box(&self) -> UprightBox {
        self.upright_box
    }

    /// How many nodes the tree has, this one included.
    pub fn nodes(&self) -> usize {
        self.nodes
    }

    /// The left and the right subtree, or `None` for a leaf.
    pub fn halves(&self) -> Option<&[Tree; 2]> {
        self.halves.as_deref()
    }

    /// The strips of the leaves, from left to right.
    pub fn leaves(&self) -> Vec<&Strip> {
        match self.halves() {
            None => vec![&self.strip],
            Some([left, right]) => [left.leaves(), right.leaves()].concat(),
        }
    }

    /// The tree over one piece; `Long` as soon as a piece that is not short
    /// has no halves.
    fn over(edge: &Edge, piece: Piece, grain: i32) -> Result<Tree, Refusal> {
        let strip = Strip::of(edge, piece);
        if strip.is_short(grain) {
            return Ok(Tree::leaf(strip));
        }
        let [left, right] = piece.halves().ok_or(Refusal::Long)?;
        let left = Tree::over(edge, left, grain)?;
        let right = Tree::over(edge, right, grain)?;
        Ok(Tree::joined(strip, [left, right]))
    }

    fn leaf(strip: Strip) -> Tree {
        Tree {
            strip,
            upright_box: UprightBox::of(&strip),
            nodes: 1,
            halves: None,
        }
    }

    /// The node above two subtrees. Its box comes from theirs alone.
    fn joined(strip: Strip, halves: [Tree; 2]) -> Tree {
        let [left, right] = &halves;
        Tree {
            strip,
            upright_box: UprightBox::around([left.upright_box, right.upright_box]),
            nodes: 1 + left.nodes + right.nodes,
            halves: Some(Box::new(halves)),
        }
    }

    /// Adds the numbers of the tree in preorder.
    fn append_numbers(&self, numbers: &mut Vec<i32>) {
        let Strip {
            centre,
            axis,
            half_box,
        } = self.strip;
        let [cx, cy] = centre.map(store_number);
        let [ax, ay] = axis.map(store_number);
        let [bx, by] = half_box.map(store_number);
        let nodes = store_number(self.nodes as i64);
        let UprightBox { least, greatest } = self.upright_box;
        numbers.extend([cx, cy, ax, ay, bx, by, nodes]);
        numbers.extend(least.map(store_number));
        numbers.extend(greatest.map(store_number));
        for half in self.halves().into_iter().flatten() {
            half.append_numbers(numbers);
        }
    }
}

/// A legal job's strips reach 22,000,002 fine units at most, far inside 32 bits.
/// Boxes do not go far past that: each end is one of a leaf's, and a leaf is
/// short, so the end is within 16 times the grain, 1,600,000 at most, of its
/// centre.
fn store_number(number: i64) -> i32 {
    i32::try_from(number).expect("the numbers of a legal job's trees fit 32 bits")
}

/// The trees of a job, one an edge and in job order, or the lowest of 2 to 5.
pub fn grow(job: &Job) -> Result<Vec<Tree>, Refusal> {
    judge(job)?;
    job.edges()
        .map(|edge| Tree::over(&edge, Piece::WHOLE, job.grain))
        .collect()
}

/// The numbers of the job's own trees; none where they cannot be grown.
pub fn own_store(job: &Job) -> Vec<i32> {
    grow(job).map_or_else(|_| Vec::new(), |trees| store_numbers(&trees))
}

/// How many nodes the trees have together.
pub fn node_count(trees: &[Tree]) -> usize {
    trees.iter().map(Tree::nodes).sum()
}

/// The numbers the store is to hold.
pub fn store_numbers(trees: &[Tree]) -> Vec<i32> {
    let mut numbers = Vec::with_capacity(NUMBERS_A_NODE * node_count(trees));
    for tree in trees {
        tree.append_numbers(&mut numbers);
    }
    numbers
}
