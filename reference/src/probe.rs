//! A fixed battery of questions about one job: points near and far, and stores
//! that are whole, longer, short, changed or of a coarser grain. A test program
//! of another implementation asks the same and is compared with the text.

use crate::entries::point_with_reads;
use crate::job::Job;
use crate::listing;
use crate::trees::{own_store, NUMBERS_A_NODE};

/// The point that the damaged stores are asked about.
pub(crate) const SPOT: [i32; 2] = [3, 4];
/// Numbers of a node without its box.
const NUMBERS_WITHOUT_BOX: usize = 7;

/// The answers, a line each.
pub fn battery(job: &Job) -> String {
    let store = own_store(job);
    let mut text = String::new();
    for spot in spots(job) {
        text += &answer(job, spot, &store);
    }
    for store in stores(&store) {
        text += &answer(job, SPOT, &store);
    }
    for store in ends(&store) {
        text += &answer(job, SPOT, short(&store));
    }
    text += &of_finest(job, &store);
    text += &answer(job, SPOT, &without_boxes(&store));
    text
}

/// The answers of the job with the finest grain, of which trees are long that
/// are not with the job's own: it is given the job's own store, whole, short by
/// one number, and each with a number changed.
fn of_finest(job: &Job, store: &[i32]) -> String {
    let finest = Job {
        grain: 1,
        ..job.clone()
    };
    let ask = |store: &[i32]| answer(&finest, SPOT, store);
    let mut text = ask(store) + &ask(short(store));
    text.extend(ends(store).map(|store| ask(&store)));
    text.extend(ends(store).map(|store| ask(short(&store))));
    text
}

/// Points in, on and past the range, and those of the first edge's place. The
/// last numbers of a line's place are zeros, so there two are the origin again.
pub(crate) fn spots(job: &Job) -> [[i32; 2]; 10] {
    let [x0, y0, x1, y1, x2, y2, x3, y3, ..] = job.places;
    [
        [0, 0],
        SPOT,
        [job.x, job.y],
        [x0, y0],
        [x1, y1],
        [x2, y2],
        [x3, y3],
        [1_000_000, -1_000_000],
        [1_000_001, 0],
        [0, -1_000_001],
    ]
}

/// One number more, one less, none; then each number of the first, the middle
/// and the last node changed, one at a time. Those with a change are made only
/// as they are asked, since each may be large.
fn stores(store: &[i32]) -> impl Iterator<Item = Vec<i32>> + '_ {
    let nodes = store.len() / NUMBERS_A_NODE;
    let numbers = [0, nodes / 2, nodes.saturating_sub(1)]
        .into_iter()
        .flat_map(|node| (0..NUMBERS_A_NODE).map(move |place| NUMBERS_A_NODE * node + place));
    let changes = numbers.map(|index| changed(store, index));
    lengths(store).into_iter().chain(changes)
}

/// The first, the middle and the last number changed, one at a time.
fn ends(store: &[i32]) -> impl Iterator<Item = Vec<i32>> + '_ {
    [0, store.len() / 2, store.len().saturating_sub(1)]
        .into_iter()
        .map(|index| changed(store, index))
}

/// The store without its last number.
fn short(store: &[i32]) -> &[i32] {
    &store[..store.len().saturating_sub(1)]
}

/// The store with one number more, with one less, and none of it.
pub(crate) fn lengths(store: &[i32]) -> [Vec<i32>; 3] {
    [[store, &[0]].concat(), short(store).to_vec(), Vec::new()]
}

/// The store with one number raised by 1; the empty store as it is. The numbers
/// of a store are far from the end of 32 bits.
pub(crate) fn changed(store: &[i32], index: usize) -> Vec<i32> {
    let mut store = store.to_vec();
    if let Some(number) = store.get_mut(index) {
        *number += 1;
    }
    store
}

fn without_boxes(store: &[i32]) -> Vec<i32> {
    let nodes = store.chunks(NUMBERS_A_NODE);
    nodes
        .flat_map(|node| &node[..NUMBERS_WITHOUT_BOX])
        .copied()
        .collect()
}

fn answer(job: &Job, [x, y]: [i32; 2], store: &[i32]) -> String {
    point_with_reads(job, x, y, store)
        .map_or_else(listing::refusal, |lookup| listing::point_and_reads(&lookup))
}
