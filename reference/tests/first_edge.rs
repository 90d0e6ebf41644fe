//! The edge given with a point: the first in job order, counted from 0, of whose
//! leaves one attains hi. Figures, ties made on purpose, and random jobs with
//! edges that are repeated.

mod common;

use clearance_reference::{point, Edge, Nearest};
use common::jobs::{coarse_job, random_job};
use common::plain::bounds_by_edge;
use common::random::Xorshift;
use common::{edge, finished, job_with, line, point_edge, sample_job};

const LIMIT: i32 = 1_000_000;

/// lo, hi and the edge at a spot, from the job's own store.
fn asked(edges: &[Edge], grain: i32, [x, y]: [i32; 2]) -> (i64, i64, usize) {
    let job = job_with(edges, grain);
    let store = finished(&job).unwrap().store;
    let Nearest { lo, hi, edge } = point(&job, x, y, &store).unwrap();
    (lo, hi, edge)
}

fn spot_edge(x: i32, y: i32) -> Edge {
    edge([x; 4], [y; 4])
}

/// (3, 4) is 48 and 64 fine units from the sample's point.
#[test]
fn the_sample() {
    let edges: Vec<Edge> = sample_job().edges().collect();
    assert_eq!(asked(&edges, 1, [3, 4]), (6_400, 6_400, 0));
}

/// A point has a box without sides, so lo and hi are its squared distance. From
/// (4, 0) all three are 64 fine units away.
#[test]
fn three_points() {
    let edges = [spot_edge(0, 0), spot_edge(8, 0), spot_edge(0, 0)];
    assert_eq!(asked(&edges, 1, [4, 0]), (4_096, 4_096, 0));
    assert_eq!(asked(&edges, 1, [8, 0]), (0, 0, 1));
    assert_eq!(asked(&edges, 1, [0, 0]), (0, 0, 0));
}

/// The first edge runs straight from (-144, 16) to (144, 16) fine units and is a
/// leaf: lo is 16² and its own hi 144² + 16². The point is at (32, 32), so its hi
/// is 2 · 32², which is less, and its edge is given though the other gave lo.
#[test]
fn lo_and_hi_of_two_edges() {
    let wide = edge([-9, -3, 3, 9], [1; 4]);
    let near = spot_edge(2, 2);
    assert_eq!(asked(&[wide], 20, [0, 0]), (256, 20_992, 0));
    assert_eq!(asked(&[wide, near], 20, [0, 0]), (256, 2_048, 1));
    assert_eq!(asked(&[near, wide], 20, [0, 0]), (256, 2_048, 0));
}

/// The same edge twice, of one leaf and of many: in front, in the middle, last,
/// and with others between.
#[test]
fn the_same_edge_twice() {
    let bend = edge([0, 0, 4, 12], [0, 4, 8, 12]);
    for near in [point_edge(3), line([-5, 3, 7, 3]), bend] {
        let [far, farther] = [point_edge(500), point_edge(-900)];
        for (edges, first) in [
            (vec![near, near, far, farther], 0),
            (vec![far, near, near, farther], 1),
            (vec![far, farther, near, near], 2),
            (vec![near, far, farther, near], 0),
            (vec![far, near, farther, near], 1),
            (vec![far, near, near, near], 1),
        ] {
            for grain in [1, 7, 100] {
                let (lo, hi, edge) = asked(&edges, grain, [3, 3]);
                assert_eq!(edge, first, "{edges:?} at grain {grain}");
                let (lo_alone, hi_alone, _) = asked(&[near], grain, [3, 3]);
                assert_eq!((lo, hi), (lo_alone, hi_alone));
            }
        }
    }
}

/// Two upright lines, each a leaf, 48 fine units to either side of the axis and
/// from -32 to 32: on the axis hi is 48² + 32² of both. A hundredth to the right
/// of it the right one is nearer.
#[test]
fn mirrored_edges_on_the_axis() {
    let right = line([3, -2, 3, 2]);
    let left = line([-3, -2, -3, 2]);
    let far = point_edge(-50);
    for (edges, on_axis, beside) in [
        (vec![left, right], 0, 1),
        (vec![right, left], 0, 0),
        (vec![far, right, left], 1, 1),
        (vec![far, left, far, right], 1, 3),
    ] {
        assert_eq!(asked(&edges, 20, [0, 0]), (2_304, 3_328, on_axis));
        assert_eq!(asked(&edges, 20, [1, 0]), (1_024, 2_048, beside));
    }
}

/// The sides of a square of 8, around it and each cut into four leaves, 32 fine
/// units long. At a corner the last leaf of one side and the first of the next
/// attain hi, and where the outline closes these are the last and the first edge.
/// From the middle each side has two leaves that end 64 across and 32 along.
#[test]
fn shared_ends_of_a_closed_outline() {
    let corners = [[0, 0], [8, 0], [8, 8], [0, 8]];
    for start in 0..4 {
        let corner = |index: usize| corners[(start + index) % 4];
        let side = |index: usize| {
            let [[x0, y0], [x1, y1]] = [corner(index), corner(index + 1)];
            line([x0, y0, x1, y1])
        };
        let sides = [0, 1, 2, 3].map(side);
        for (index, first) in [(0, 0), (1, 0), (2, 1), (3, 2)] {
            assert_eq!(asked(&sides, 1, corner(index)), (0, 1_024, first));
        }
        assert_eq!(asked(&sides, 1, [4, 4]), (4_096, 5_120, 0));
    }
}

/// The second edge attains hi with its first leaf: alone, where the first edge is
/// farther, and as near as the first edge, which does so with its last.
#[test]
fn the_first_leaf_of_the_second_edge() {
    let [first, second] = [line([8, 0, 0, 0]), line([0, 0, 0, 8])];
    assert_eq!(asked(&[first, second], 1, [0, 0]), (0, 1_024, 0));
    let farther = line([8, -1, 0, -1]);
    assert_eq!(asked(&[farther, second], 1, [0, 0]), (0, 1_024, 1));
}

/// What turned up over all the spots.
#[derive(Default, Debug)]
struct Notes {
    spots: usize,
    /// Several edges attain hi, so the last of them is another.
    shared: usize,
    /// The same, and the first of them is not edge 0.
    shared_later: usize,
    /// The first edge that attains lo is another.
    other_lo: usize,
}

/// Checks the edges at a spot against a way through all of them.
fn check(edges: &[Edge], grain: i32, store: &[i32], spot: [i32; 2], notes: &mut Notes) {
    let job = job_with(edges, grain);
    let bounds = bounds_by_edge(store, spot);
    let lo = bounds.iter().map(|bound| bound.0).min().unwrap();
    let hi = bounds.iter().map(|bound| bound.1).min().unwrap();
    let first = bounds.iter().position(|bound| bound.1 == hi).unwrap();
    let wanted = Nearest {
        lo,
        hi,
        edge: first,
    };
    let found = point(&job, spot[0], spot[1], store);
    assert_eq!(found, Ok(wanted), "{spot:?} {job:?}");
    let shared = bounds.iter().filter(|bound| bound.1 == hi).count() > 1;
    notes.spots += 1;
    notes.shared += usize::from(shared);
    notes.shared_later += usize::from(shared && first > 0);
    notes.other_lo += usize::from(bounds.iter().position(|bound| bound.0 == lo) != Some(first));
}

/// Each place has one of a few edges, most of them so several times. Asked about
/// the ends of each and about the origin.
#[test]
fn random_jobs_with_repeated_edges() {
    let mut rng = Xorshift::new(0xf125_7ed9);
    let mut notes = Notes::default();
    for index in 0..1_500 {
        let job = match index % 2 {
            0 => random_job(&mut rng, 0),
            _ => coarse_job(&mut rng, 0),
        };
        let few: Vec<Edge> = job.edges().collect();
        let places = rng.between(2, 3 * few.len() as i32);
        let edges: Vec<Edge> = (0..places).map(|_| rng.choose(&few)).collect();
        let Ok(done) = finished(&job_with(&edges, job.grain)) else {
            continue;
        };
        for edge in few {
            let [x, y, ..] = edge.place();
            let near = rng.choose(&[0, 3, 40, 1_000]);
            let spot = [x, y].map(|number| number + rng.between(-near, near));
            let spot = spot.map(|number| number.clamp(-LIMIT, LIMIT));
            check(&edges, job.grain, &done.store, spot, &mut notes);
        }
        check(&edges, job.grain, &done.store, [0, 0], &mut notes);
    }
    assert!(
        notes.spots > 3_000 && 2 * notes.shared > notes.spots,
        "{notes:?}"
    );
    assert!(
        notes.shared_later > 300 && notes.other_lo > 300,
        "{notes:?}"
    );
}
