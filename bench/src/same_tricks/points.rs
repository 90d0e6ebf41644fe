//! The distances of several points, over the numbers of a store.

use super::check::{count_nodes, holds_trees};
use super::search::tree_length;
use clearance_reference::trees::NUMBERS_A_NODE;
use clearance_reference::{judge_with_spots, Job, Refusal, SPOT_LIMIT};

/// Stands for the bounds before the first leaf.
const NONE: i64 = 1 << 62;

/// The entry `points`: lo, hi and edge of each spot, to the start of the reply.
pub fn points(job: &Job, spots: &[i32], store: &[i32], reply: &mut [i64]) -> Result<(), Refusal> {
    judge_with_spots(job, spots)?;
    let (pairs, odd) = spots.as_chunks();
    if !odd.is_empty() || !(1..=SPOT_LIMIT).contains(&pairs.len()) {
        return Err(Refusal::Sheaf);
    }
    let nodes = count_nodes(job).ok_or(Refusal::Long)?;
    if store.len() < NUMBERS_A_NODE * nodes {
        return Err(Refusal::Store);
    }
    let answers = reply.as_chunks_mut().0;
    let answers = answers.get_mut(..pairs.len()).ok_or(Refusal::Space)?;
    if !holds_trees(job, store) {
        return Err(Refusal::Stranger);
    }
    for (answer, &spot) in answers.iter_mut().zip(pairs) {
        *answer = nearest(store, job.count, spot);
    }
    Ok(())
}

/// lo, hi and edge of one spot.
fn nearest(store: &[i32], count: usize, spot: [i32; 2]) -> [i64; 3] {
    let fine = spot.map(|number| 16 * number);
    let mut best = [NONE, NONE, 0];
    let mut at = 0;
    for edge in 0..count {
        let end = at + tree_length(store, at);
        look_through(&store[at..end], edge as i64, fine, &mut best);
        at = end;
    }
    best
}

/// One node after the other in the order of the store. One whose box is no nearer
/// than hi is stepped past with its subtree.
fn look_through(part: &[i32], edge: i64, [x, y]: [i32; 2], best: &mut [i64; 3]) {
    let mut at = 0;
    while let Some(&[.., nodes, x0, y0, x1, y1]) = part[at..].first_chunk::<NUMBERS_A_NODE>() {
        let [lo, hi, named] = best;
        let (x_near, x_far) = range(x0, x1, x);
        let (y_near, y_far) = range(y0, y1, y);
        let [near, far] = [squares(x_near, y_near), squares(x_far, y_far)];
        if *hi <= near {
            at += NUMBERS_A_NODE * nodes as usize;
            continue;
        }
        at += NUMBERS_A_NODE;
        if nodes == 1 {
            *lo = near.min(*lo);
            if far < *hi {
                (*hi, *named) = (far, edge);
            }
        }
    }
}

/// How near the box is in one coordinate, and how far its farther side. A point in
/// range is so near to every box of a legal job that 32 bits suffice. Both are
/// found for every node, as the proved library does, though only a leaf's farther
/// side is used.
fn range(least: i32, greatest: i32, at: i32) -> (i32, i32) {
    let near = (least - at).max(at - greatest).max(0);
    (near, (at - least).max(greatest - at))
}

fn squares(x: i32, y: i32) -> i64 {
    i64::from(x).pow(2) + i64::from(y).pow(2)
}
