//! The five public entries, with lent memory as RULES, "Entries" has it.
//! Each one settles every refusal before it writes anything lent, in the order
//! of their numbers; only 9, which [`points`] alone gives, stands right after 4.

use crate::job::{judge_with_spots, Job};
use crate::plate::{cells_a_side, draw};
use crate::point::{lookup, Lookup, Nearest};
use crate::refusal::Refusal;
use crate::sheet;
use crate::trees::{grow, node_count, store_numbers, Tree};

/// Most spots of a sheaf.
pub const SPOT_LIMIT: usize = 256;
/// Numbers of a spot, X and then Y.
const NUMBERS_A_SPOT: usize = 2;
/// Numbers of a spot's reply: lo, hi and the edge.
const NUMBERS_A_REPLY: usize = 3;

/// Reads a job sheet. Refuses with 1 to 4.
pub fn read(bytes: &[u8]) -> Result<Job, Refusal> {
    sheet::parse(bytes)
}

/// Writes a job's sheet to the start of the lent bytes and gives its length.
/// Refuses with 2, 3, 4 or 7.
pub fn write(job: &Job, lent: &mut [u8]) -> Result<usize, Refusal> {
    let text = sheet::text(job)?;
    let target = lent.get_mut(..text.len()).ok_or(Refusal::Space)?;
    target.copy_from_slice(text.as_bytes());
    Ok(text.len())
}

/// Writes the trees to the start of the store and the map to the start of the
/// cells, and gives the node count. Refuses with 2 to 7.
pub fn map(job: &Job, store: &mut [i32], cells: &mut [u8]) -> Result<usize, Refusal> {
    let trees = grow(job)?;
    let numbers = store_numbers(&trees);
    let side = cells_a_side(job);
    let lent_numbers = store.get_mut(..numbers.len()).ok_or(Refusal::Store)?;
    let letters = cells.get_mut(..side * side).ok_or(Refusal::Space)?;
    lent_numbers.copy_from_slice(&numbers);
    draw(job, &trees, letters);
    Ok(node_count(&trees))
}

/// Bounds the distance from a spot to the outline whose trees the store holds.
/// The edge is the first in job order, counted from 0, of whose leaves one
/// attains hi. Refuses with 2, 3, 4, 5, 6 or 8.
pub fn point(job: &Job, x: i32, y: i32, store: &[i32]) -> Result<Nearest, Refusal> {
    point_with_reads(job, x, y, store).map(|lookup| lookup.nearest)
}

/// As [`point`], with the count of the nodes that the lookup read. The check of
/// the store before it is not counted.
pub fn point_with_reads(job: &Job, x: i32, y: i32, store: &[i32]) -> Result<Lookup, Refusal> {
    judge_with_spots(job, &[x, y])?;
    let trees = grow(job)?;
    let numbers = store_numbers(&trees);
    compare(front(store, &numbers)?, &numbers)?;
    found(&trees, x, y)
}

/// Bounds the distances of up to [`SPOT_LIMIT`] spots, each as [`point`] does,
/// and writes lo, hi and the edge of each to the start of the reply, in the order
/// of the spots. The store is checked once. Refuses with the first of 2, 3, 4, 9,
/// 5, 6, 7 and 8, in this order; one bad spot is enough.
pub fn points(job: &Job, spots: &[i32], store: &[i32], reply: &mut [i64]) -> Result<(), Refusal> {
    judge_with_spots(job, spots)?;
    count_spots(spots)?;
    let trees = grow(job)?;
    let numbers = store_numbers(&trees);
    let lent_numbers = front(store, &numbers)?;
    let lent_reply = reply.get_mut(..reply_length(spots)).ok_or(Refusal::Space)?;
    compare(lent_numbers, &numbers)?;
    lent_reply.copy_from_slice(&found_together(&trees, spots)?);
    Ok(())
}

/// How many numbers the reply to these spots has. An odd last number, which is
/// refused, has no part in it.
pub fn reply_length(spots: &[i32]) -> usize {
    spots.len() / NUMBERS_A_SPOT * NUMBERS_A_REPLY
}

/// Refuses a row of numbers that is no sheaf.
fn count_spots(spots: &[i32]) -> Result<(), Refusal> {
    let whole = spots.len().is_multiple_of(NUMBERS_A_SPOT);
    let counted = (1..=SPOT_LIMIT).contains(&(spots.len() / NUMBERS_A_SPOT));
    (whole && counted).then_some(()).ok_or(Refusal::Sheaf)
}

/// The part of a store that is to hold these numbers.
fn front<'a>(store: &'a [i32], numbers: &[i32]) -> Result<&'a [i32], Refusal> {
    store.get(..numbers.len()).ok_or(Refusal::Store)
}

/// Refuses a store whose front holds other numbers than these.
fn compare(front: &[i32], numbers: &[i32]) -> Result<(), Refusal> {
    (front == numbers).then_some(()).ok_or(Refusal::Stranger)
}

fn found(trees: &[Tree], x: i32, y: i32) -> Result<Lookup, Refusal> {
    // A legal job has an edge, so there is always a nearest one.
    lookup(trees, x, y).ok_or(Refusal::Edges)
}

/// The whole reply, before any of it is written. No spot's lookup knows of
/// another's.
fn found_together(trees: &[Tree], spots: &[i32]) -> Result<Vec<i64>, Refusal> {
    let mut reply = Vec::with_capacity(reply_length(spots));
    for &[x, y] in spots.as_chunks().0 {
        reply.extend(found(trees, x, y)?.nearest.numbers());
    }
    Ok(reply)
}
