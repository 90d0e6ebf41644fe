//! Points: the bounds against exact distances, and stores that are short,
//! changed, longer or another job's.

mod common;

use clearance_reference::{point, Job, Refusal};
use common::brute_force::{edge_points, outline_points, scaled_square, squared_distance};
use common::jobs::random_job;
use common::plain::bounds_from_store;
use common::random::Xorshift;
use common::{edge, finished, job_with, line, point_edge};

/// Squared distances in fine units, times the scale of outline points squared.
fn least_distance(points: &[[i64; 2]], spot: [i32; 2]) -> i128 {
    let squares = points.iter().map(|&point| squared_distance(point, spot));
    256 * squares.min().unwrap()
}

/// No outline point is nearer than `lo`. Every leaf has both its ends among the
/// points k/1024 and `hi` bounds a whole leaf of the edge given, so some such
/// point of that edge is within `hi`. Neither can fail on right bounds.
#[test]
fn the_bounds_hold() {
    let mut rng = Xorshift::new(0x94d0_49bb);
    for _ in 0..300 {
        let job = random_job(&mut rng, 0);
        let Ok(done) = finished(&job) else { continue };
        let outline = outline_points(&job);
        for _ in 0..4 {
            let spot = [
                job.x.saturating_add(rng.between(-200, 2_000)),
                job.y.saturating_add(rng.between(-200, 2_000)),
            ]
            .map(|number| number.clamp(-1_000_000, 1_000_000));
            let nearest = point(&job, spot[0], spot[1], &done.store).unwrap();
            let named = edge_points(&job.edges().nth(nearest.edge).unwrap());
            let least = least_distance(&outline, spot);
            assert!(scaled_square(i128::from(nearest.lo)) <= least);
            let on_named = least_distance(&named, spot);
            assert!(on_named <= scaled_square(i128::from(nearest.hi)));
        }
    }
}

#[test]
fn the_bounds_are_those_of_the_leaves() {
    let mut rng = Xorshift::new(0x1bf5_8476);
    for _ in 0..300 {
        let job = random_job(&mut rng, 0);
        let Ok(done) = finished(&job) else { continue };
        let spot = [job.x, job.y];
        let nearest = point(&job, spot[0], spot[1], &done.store).unwrap();
        assert_eq!(
            (nearest.lo, nearest.hi),
            bounds_from_store(&done.store, spot)
        );
        // The edge is the first whose own leaves come to the same hi.
        let own = |index: usize| {
            let alone = job_with(&[job.edges().nth(index).unwrap()], job.grain);
            let store = finished(&alone).unwrap().store;
            bounds_from_store(&store, spot).1
        };
        assert_eq!(own(nearest.edge), nearest.hi);
        assert!((0..nearest.edge).all(|index| own(index) > nearest.hi));
    }
}

#[test]
fn a_store_that_is_not_the_jobs() {
    let mut rng = Xorshift::new(0x0bad_5eed);
    let mut maps = 0;
    for _ in 0..200 {
        let job = random_job(&mut rng, 0);
        let Ok(done) = finished(&job) else { continue };
        let ask = |store: &[i32]| point(&job, 1, -1, store);
        let wanted = ask(&done.store);
        assert!(wanted.is_ok());
        let length = done.store.len();
        for short in [0, 1, length / 2, length - 1] {
            assert_eq!(ask(&done.store[..short]), Err(Refusal::Store));
        }
        for place in [0, 6, length / 2, length - 11, length - 5, length - 1] {
            for change in [1, -1, i32::MIN] {
                let mut changed = done.store.clone();
                changed[place] = changed[place].wrapping_add(change);
                assert_eq!(ask(&changed), Err(Refusal::Stranger));
                // Too short comes before other numbers.
                assert_eq!(ask(&changed[..length - 1]), Err(Refusal::Store));
            }
        }
        let mut longer = done.store.clone();
        longer.extend([i32::MIN, 7, i32::MAX]);
        assert_eq!(ask(&longer), wanted);
        maps += 1;
    }
    assert!(maps > 150);
}

/// Every number of every node is checked, the box of inner nodes as well.
#[test]
fn any_one_number_changed_is_a_stranger() {
    let bend = edge([0, 0, 4, 12], [0, 4, 8, 12]);
    let slant = line([0, 0, 17, -17]);
    for (job, nodes) in [
        (job_with(&[point_edge(0)], 1), 1),
        (job_with(&[bend], 7), 3),
        (job_with(&[bend, point_edge(9), slant], 1), 21 + 1 + 31),
    ] {
        let store = finished(&job).unwrap().store;
        assert_eq!(store.len(), 11 * nodes);
        assert!(point(&job, 3, 4, &store).is_ok());
        for place in 0..store.len() {
            for change in [1, -1] {
                let mut changed = store.clone();
                changed[place] += change;
                assert_eq!(point(&job, 3, 4, &changed), Err(Refusal::Stranger));
            }
            assert_eq!(point(&job, 3, 4, &store[..place]), Err(Refusal::Store));
        }
    }
}

/// A store of nodes without boxes is too short by itself. With enough numbers
/// after it, it is a stranger: no box ends at the least 32-bit number.
#[test]
fn a_store_without_boxes() {
    let mut rng = Xorshift::new(0x7007_ab1e);
    let mut maps = 0;
    for _ in 0..200 {
        let job = random_job(&mut rng, 0);
        let Ok(done) = finished(&job) else { continue };
        let nodes = done.store.chunks(11);
        let mut store: Vec<i32> = nodes.flat_map(|node| &node[..7]).copied().collect();
        assert_eq!(point(&job, 1, -1, &store), Err(Refusal::Store));
        store.resize(done.store.len(), i32::MIN);
        assert_eq!(point(&job, 1, -1, &store), Err(Refusal::Stranger));
        maps += 1;
    }
    assert!(maps > 150);
    // With zeros after it, as a program lends them. One node would not do here:
    // the box of the point edge at 0 is zeros, too.
    let job = job_with(&[edge([0, 0, 4, 12], [0, 4, 8, 12])], 7);
    let store = finished(&job).unwrap().store;
    let mut lent: Vec<i32> = store
        .chunks(11)
        .flat_map(|node| &node[..7])
        .copied()
        .collect();
    lent.resize(16_379, 0);
    assert_eq!(point(&job, 0, 0, &lent), Err(Refusal::Stranger));
}

#[test]
fn another_job_with_the_same_trees_is_no_stranger() {
    let job = job_with(&[edge([0, 5, 9, 2], [1, 1, 4, 8])], 3);
    let store = finished(&job).unwrap().store;
    let other = Job {
        x: 500,
        y: -500,
        n: 9,
        m: 9,
        reach: 77,
        ..job.clone()
    };
    assert_eq!(point(&other, 3, 3, &store), point(&job, 3, 3, &store));
    // A shifted edge has a tree of the same shape, so the length still suits.
    let moved = job_with(&[edge([1, 6, 10, 3], [1, 1, 4, 8])], 3);
    assert_eq!(point(&moved, 3, 3, &store), Err(Refusal::Stranger));
}
