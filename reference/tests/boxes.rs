//! The boxes of nodes: against the corners of the leaves below them, and where
//! they stand in the store.

mod common;

use clearance_reference::boxes::UprightBox;
use clearance_reference::trees::{grow, store_numbers, Tree, NUMBERS_A_NODE};
use clearance_reference::{Edge, Job};
use common::brute_force::edge_points;
use common::jobs::{coarse_job, random_job};
use common::plain::{corners, leaves};
use common::random::Xorshift;
use common::{edge, job_with, line, long_edge, point_edge};

/// What turned up, so that no check passes for want of cases.
#[derive(Default, Debug)]
struct Notes {
    leaves: usize,
    inner: usize,
    /// Nodes with halves whose own strip reaches past their box.
    strip_past_box: usize,
    /// Those whose own strip does not fill their box.
    box_past_strip: usize,
}

/// A tree's nodes in the order of the store.
fn preorder(tree: &Tree) -> Vec<&Tree> {
    let mut nodes = vec![tree];
    for half in tree.halves().into_iter().flatten() {
        nodes.extend(preorder(half));
    }
    nodes
}

/// The least box around these points, by taking the ends of sorted numbers.
fn around(points: &[[i64; 2]]) -> UprightBox {
    let sorted = [0, 1].map(|c| {
        let mut numbers: Vec<i64> = points.iter().map(|point| point[c]).collect();
        numbers.sort_unstable();
        numbers
    });
    UprightBox {
        least: [0, 1].map(|c| sorted[c][0]),
        greatest: [0, 1].map(|c| sorted[c][sorted[c].len() - 1]),
    }
}

fn holds(outer: UprightBox, inner: UprightBox) -> bool {
    (0..2).all(|c| outer.least[c] <= inner.least[c] && inner.greatest[c] <= outer.greatest[c])
}

/// A node's box holds every leaf's and each of its sides is a side of some
/// leaf's, so none smaller would do.
fn check_node(node: &Tree, notes: &mut Notes) {
    let own = node.upright_box();
    let below: Vec<UprightBox> = leaves(node)
        .iter()
        .map(|strip| around(&corners(strip)))
        .collect();
    assert!(below.iter().all(|&leaf| holds(own, leaf)));
    for c in 0..2 {
        assert!(below.iter().any(|leaf| leaf.least[c] == own.least[c]));
        assert!(below.iter().any(|leaf| leaf.greatest[c] == own.greatest[c]));
    }
    let of_strip = around(&corners(node.strip()));
    let Some(halves) = node.halves() else {
        assert_eq!(own, of_strip);
        notes.leaves += 1;
        return;
    };
    assert!(halves.iter().all(|half| holds(own, half.upright_box())));
    notes.inner += 1;
    notes.strip_past_box += usize::from(!holds(own, of_strip));
    notes.box_past_strip += usize::from(!holds(of_strip, own));
}

/// Checks all nodes of a job, and their last four numbers in its store.
fn check(job: &Job, notes: &mut Notes) {
    let Ok(trees) = grow(job) else { return };
    let store = store_numbers(&trees);
    let mut numbers = store.chunks(11);
    for node in trees.iter().flat_map(preorder) {
        check_node(node, notes);
        let UprightBox { least, greatest } = node.upright_box();
        let stored = numbers.next().unwrap();
        assert_eq!(stored[6] as usize, node.nodes());
        let wanted = [least, greatest].concat();
        let ends: Vec<i64> = stored[7..].iter().copied().map(i64::from).collect();
        assert_eq!(ends, wanted);
    }
    assert_eq!(numbers.next(), None);
}

#[test]
fn random_trees() {
    assert_eq!(NUMBERS_A_NODE, 11);
    let mut notes = Notes::default();
    let mut rng = Xorshift::new(0x0b0e_5b0e);
    for _ in 0..3_000 {
        check(&random_job(&mut rng, 0), &mut notes);
        check(&coarse_job(&mut rng, 0), &mut notes);
    }
    assert!(notes.leaves > 100_000 && notes.inner > 100_000, "{notes:?}");
    assert!(notes.strip_past_box > 1_000, "{notes:?}");
    assert!(notes.box_past_strip > 1_000, "{notes:?}");
}

#[test]
fn trees_of_single_shapes() {
    let mut notes = Notes::default();
    for (edge, grain) in [
        (point_edge(-5), 1),
        (line([0, 0, 17, -17]), 1),
        (line([-1_000_000, 1_000_000, 1_000_000, -1_000_000]), 977),
        (long_edge(), 489),
        (edge([0, 80, 80, 0], [0, 40, 40, 0]), 2),
        (
            edge([-1_000_000, 1_000_000, -1_000_000, 1_000_000], [7; 4]),
            99_000,
        ),
    ] {
        assert!(grow(&job_with(&[edge], grain)).is_ok());
        check(&job_with(&[edge], grain), &mut notes);
    }
    assert!(notes.leaves > 2_048 && notes.inner > 2_046);
}

/// The first leaf's strip is (9, -8) with axis (9, -8) and box (2, 2). No leaf
/// reaches farther to the left or up, so the whole tree's box starts there.
#[test]
fn the_box_of_a_slanted_line() {
    let trees = grow(&job_with(&[line([0, 0, 17, -17])], 1)).unwrap();
    let mut first = &trees[0];
    while let Some([left, _]) = first.halves() {
        first = left;
    }
    let wanted = UprightBox {
        least: [-2, -18],
        greatest: [20, 2],
    };
    assert_eq!(first.upright_box(), wanted);
    let all = trees[0].upright_box();
    assert_eq!((all.least[0], all.greatest[1]), (-2, 2));
}

/// The outline at the parameters k/1024 lies in the box of its tree.
#[test]
fn boxes_hold_the_outline() {
    let mut rng = Xorshift::new(0x00f1_e1d5);
    let mut checked = 0;
    for _ in 0..400 {
        let job = random_job(&mut rng, 0);
        let Ok(trees) = grow(&job) else { continue };
        let edges: Vec<Edge> = job.edges().collect();
        for (tree, edge) in trees.iter().zip(&edges) {
            // Outline points come times 2^30, fine units are sixteenths.
            let UprightBox { least, greatest } = tree.upright_box();
            for point in edge_points(edge) {
                for c in 0..2 {
                    let number = 16 * i128::from(point[c]);
                    assert!(i128::from(least[c]) << 30 <= number);
                    assert!(number <= i128::from(greatest[c]) << 30);
                }
            }
            checked += 1;
        }
    }
    assert!(checked > 500, "{checked}");
}
