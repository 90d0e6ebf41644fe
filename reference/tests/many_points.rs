//! Sheaves of spots: figures, each spot as it would be alone, any order of the
//! spots, the count of numbers, and stores that are not the job's.

mod common;

use clearance_reference::Refusal::{Cell, Long, Range, Sheaf, Space, Store, Stranger};
use clearance_reference::{point, points, reply_length, Edge, Job, Refusal, SPOT_LIMIT};
use common::jobs::{coarse_job, random_job};
use common::plain::bounds_by_edge;
use common::random::Xorshift;
use common::{edge, finished, job_with, line, long_edge, point_edge, sample_job};

const LIMIT: i32 = 1_000_000;

/// Asks with a reply of so many numbers, each 7 beforehand.
fn asked(job: &Job, row: &[i32], store: &[i32], length: usize) -> Result<Vec<i64>, Refusal> {
    let mut reply = vec![7; length];
    let result = points(job, row, store, &mut reply);
    // A refusal leaves them all.
    assert!(result.is_ok() || reply.iter().all(|&number| number == 7));
    result.map(|()| reply)
}

/// Asks with the job's own store and gives three numbers a spot.
fn together(job: &Job, store: &[i32], spots: &[[i32; 2]]) -> Vec<[i64; 3]> {
    let row = spots.as_flattened();
    let reply = asked(job, row, store, reply_length(row)).unwrap();
    let (replies, rest) = reply.as_chunks();
    assert!(rest.is_empty());
    replies.to_vec()
}

/// What a spot gets alone.
fn alone(job: &Job, store: &[i32], [x, y]: [i32; 2]) -> [i64; 3] {
    let nearest = point(job, x, y, store).unwrap();
    [nearest.lo, nearest.hi, nearest.edge as i64]
}

/// The same from the numbers of the store.
fn from_store(store: &[i32], spot: [i32; 2]) -> [i64; 3] {
    let bounds = bounds_by_edge(store, spot);
    let lo = bounds.iter().map(|bound| bound.0).min().unwrap();
    let hi = bounds.iter().map(|bound| bound.1).min().unwrap();
    let first = bounds.iter().position(|bound| bound.1 == hi).unwrap();
    [lo, hi, first as i64]
}

fn spot_edge(x: i32, y: i32) -> Edge {
    edge([x; 4], [y; 4])
}

fn two_points() -> Job {
    job_with(&[spot_edge(0, 0), spot_edge(8, 0)], 1)
}

/// (3, 4) is 48 and 64 fine units from the first point, and (8, 0) is the second.
#[test]
fn two_spots_in_either_order() {
    let job = two_points();
    let store = finished(&job).unwrap().store;
    assert_eq!(store.len(), 22);
    for (row, wanted) in [
        ([3, 4, 8, 0], vec![6_400, 6_400, 0, 0, 0, 1, 7]),
        ([8, 0, 3, 4], vec![0, 0, 1, 6_400, 6_400, 0, 7]),
    ] {
        assert_eq!(asked(&job, &row, &store, 7), Ok(wanted));
    }
}

#[test]
fn counts_of_numbers() {
    let job = two_points();
    let store = finished(&job).unwrap().store;
    let ask = |row: &[i32]| asked(&job, row, &store, reply_length(row)).err();
    for count in [2, 4, 254, 256, 510, 512] {
        assert_eq!(ask(&vec![0; count]), None, "{count}");
    }
    for count in [0, 1, 3, 255, 257, 511, 513, 514, 515, 516, 1_024, 70_000] {
        assert_eq!(ask(&vec![0; count]), Some(Sheaf), "{count}");
        // With more to write to than any sheaf needs.
        let reply = asked(&job, &vec![0; count], &store, 3_000);
        assert_eq!(reply.err(), Some(Sheaf));
    }
    assert_eq!(2 * SPOT_LIMIT, 512);
    assert_eq!(reply_length(&[0; 512]), 768);
}

/// An odd last number counts for the range, and so do numbers past the last of
/// 256 spots.
#[test]
fn every_number_has_a_range() {
    let job = two_points();
    let store = finished(&job).unwrap().store;
    for count in [1, 2, 3, 4, 511, 512, 513, 514, 515, 2_000] {
        for place in [0, count / 2, count - 1] {
            for number in [LIMIT + 1, -LIMIT - 1, 2_000_000, i32::MIN, i32::MAX] {
                let mut row = vec![0; count];
                row[place] = number;
                let found = asked(&job, &row, &store, reply_length(&row));
                assert_eq!(found, Err(Range), "{number} at {place} of {count}");
            }
        }
    }
    assert!(asked(&job, &[LIMIT, -LIMIT], &store, 3).is_ok());
}

#[test]
fn lengths_of_the_reply() {
    let job = two_points();
    let store = finished(&job).unwrap().store;
    assert_eq!(asked(&job, &[3, 4], &store, 2), Err(Space));
    assert_eq!(asked(&job, &[3, 4], &store, 3), Ok(vec![6_400, 6_400, 0]));
    for spots in [1, 2, 100, 255, 256] {
        let row = vec![0; 2 * spots];
        for short in [0, 1, 2, 3 * spots - 3, 3 * spots - 1] {
            assert_eq!(asked(&job, &row, &store, short), Err(Space));
        }
        assert!(asked(&job, &row, &store, 3 * spots).is_ok());
    }
}

/// Refusals of the trees and of what is lent for them.
#[test]
fn an_edge_of_many_nodes() {
    let long = job_with(&[long_edge()], 488);
    assert_eq!(asked(&long, &[], &[], 0), Err(Sheaf));
    assert_eq!(asked(&long, &[0, 0], &[], 0), Err(Long));
    let deep = job_with(&[long_edge()], 489);
    assert_eq!(asked(&deep, &[0, 0], &[], 0), Err(Store));
    let zeros = [0; 22_517];
    assert_eq!(asked(&deep, &[0, 0], &zeros[1..], 3), Err(Store));
    assert_eq!(asked(&deep, &[0, 0], &zeros, 0), Err(Space));
    assert_eq!(asked(&deep, &[0, 0], &zeros, 3), Err(Stranger));
    let store = finished(&deep).unwrap().store;
    let reply = asked(&deep, &[0, 0], &store, 3);
    assert_eq!(reply, Ok(vec![0, 244_140_625, 0]));
}

#[test]
fn no_spots_of_a_job_that_is_refused() {
    let cell = Job {
        m: 5,
        ..sample_job()
    };
    assert_eq!(asked(&cell, &[], &[], 0), Err(Cell));
    assert_eq!(asked(&cell, &[LIMIT + 1], &[], 0), Err(Range));
}

/// Spots about the edges and the plate, and far off.
fn random_spots(rng: &mut Xorshift, job: &Job, count: usize) -> Vec<[i32; 2]> {
    let mut places = vec![[job.x, job.y], [0, 0]];
    for edge in job.edges() {
        let [x0, y0, x1, y1, ..] = edge.place();
        places.extend([[x0, y0], [x1, y1]]);
    }
    let mut spot = || {
        let near = rng.choose(&[0, 3, 40, 1_000, 2_000_000]);
        let place = rng.choose(&places);
        let moved = place.map(|number| number + rng.between(-near, near));
        moved.map(|number| number.clamp(-LIMIT, LIMIT))
    };
    (0..count).map(|_| spot()).collect()
}

fn shuffle<T>(rng: &mut Xorshift, values: &mut [T]) {
    for last in (1..values.len()).rev() {
        values.swap(last, rng.below(last + 1));
    }
}

/// Jobs of both makers, with their stores, as far as they are not long.
fn stored_jobs(rng: &mut Xorshift, count: usize) -> impl Iterator<Item = (Job, Vec<i32>)> + '_ {
    (0..count).filter_map(|index| {
        let job = match index % 3 {
            0 => coarse_job(rng, 0),
            _ => random_job(rng, 0),
        };
        let store = finished(&job).ok()?.store;
        Some((job, store))
    })
}

#[test]
fn alone_and_together() {
    let mut rng = Xorshift::new(0x05be_af00);
    let mut chance = Xorshift::new(0x0add_0e55);
    let (mut jobs, mut later_edges) = (0, 0);
    for (job, store) in stored_jobs(&mut rng, 4_000) {
        let count = chance.choose(&[1, 2, 3, 5, 9]);
        let spots = random_spots(&mut chance, &job, count);
        let replies = together(&job, &store, &spots);
        assert_eq!(replies.len(), spots.len());
        for (&spot, reply) in spots.iter().zip(replies) {
            assert_eq!(reply, alone(&job, &store, spot), "{spot:?} {job:?}");
            assert_eq!(reply, from_store(&store, spot), "{spot:?} {job:?}");
            later_edges += usize::from(reply[2] > 0);
        }
        jobs += 1;
    }
    assert!(jobs > 3_000 && later_edges > 1_000, "{jobs} {later_edges}");
}

/// As many spots as there may be.
#[test]
fn full_sheaves() {
    let mut rng = Xorshift::new(0x0256_0256);
    let mut chance = Xorshift::new(0x0512_0512);
    for (job, store) in stored_jobs(&mut rng, 150) {
        let spots = random_spots(&mut chance, &job, SPOT_LIMIT);
        let replies = together(&job, &store, &spots);
        assert_eq!(replies.len(), SPOT_LIMIT);
        for (&spot, reply) in spots.iter().zip(replies) {
            assert_eq!(reply, from_store(&store, spot), "{spot:?} {job:?}");
        }
    }
}

/// The replies are moved just as the spots are.
#[test]
fn any_order_of_spots() {
    let mut rng = Xorshift::new(0x0bde_0001);
    let mut chance = Xorshift::new(0x0bde_0002);
    for (job, store) in stored_jobs(&mut rng, 1_000) {
        let count = chance.choose(&[2, 3, 7, 20]);
        let spots = random_spots(&mut chance, &job, count);
        let replies = together(&job, &store, &spots);
        let mut order: Vec<usize> = (0..count).collect();
        for _ in 0..4 {
            shuffle(&mut chance, &mut order);
            let moved: Vec<[i32; 2]> = order.iter().map(|&index| spots[index]).collect();
            let wanted: Vec<[i64; 3]> = order.iter().map(|&index| replies[index]).collect();
            assert_eq!(together(&job, &store, &moved), wanted);
        }
    }
}

/// A sheaf in two parts, and the same spots over and over.
#[test]
fn parted_and_repeated_sheaves() {
    let mut rng = Xorshift::new(0x0bde_0003);
    let mut chance = Xorshift::new(0x0bde_0004);
    for (job, store) in stored_jobs(&mut rng, 500) {
        let spots = random_spots(&mut chance, &job, 8);
        let replies = together(&job, &store, &spots);
        let (front, back) = spots.split_at(1 + chance.below(7));
        let parts = [front, back].map(|part| together(&job, &store, part));
        assert_eq!(parts.concat(), replies);
        let repeated = together(&job, &store, &spots.repeat(32));
        assert_eq!(repeated, replies.repeat(32));
    }
}

/// What is behind the reply, whatever the count, is kept.
#[test]
fn longer_replies_keep_the_rest() {
    let job = two_points();
    let store = finished(&job).unwrap().store;
    let row: Vec<i32> = [3, 4, 8, 0].repeat(128);
    let wanted = [6_400, 6_400, 0, 0, 0, 1].repeat(128);
    for more in [0, 1, 2, 3, 1_000] {
        let reply = asked(&job, &row, &store, 768 + more).unwrap();
        assert_eq!(reply[..768], wanted);
        assert_eq!(reply[768..], vec![7; more]);
    }
}

/// Every number of the store is looked at, for the first of two spots and for the
/// last.
#[test]
fn any_one_number_of_the_store() {
    let bend = edge([0, 0, 4, 12], [0, 4, 8, 12]);
    let job = job_with(&[bend, point_edge(9), line([0, 0, 17, -17])], 1);
    let store = finished(&job).unwrap().store;
    let row = [3, 4, 900, -70];
    let wanted = asked(&job, &row, &store, 6);
    assert!(wanted.is_ok());
    for place in 0..store.len() {
        for change in [1, -1] {
            let mut changed = store.clone();
            changed[place] += change;
            assert_eq!(asked(&job, &row, &changed, 6), Err(Stranger));
        }
        assert_eq!(asked(&job, &row, &store[..place], 6), Err(Store));
    }
    let longer = [&store[..], &[i32::MIN, 7, i32::MAX]].concat();
    assert_eq!(asked(&job, &row, &longer, 6), wanted);
}
