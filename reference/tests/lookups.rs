//! Lookups that skip: the same bounds and edge as from all leaves, and the
//! nodes read as stepping through the store counts them.

mod common;

use clearance_reference::trees::{grow, node_count, store_numbers};
use clearance_reference::{judge, lookup, point, point_with_reads, Edge, Job, Nearest, Refusal};
use common::brute_force::edge_point;
use common::jobs::{coarse_job, random_job};
use common::plain::{plain_lookup, step_through};
use common::random::Xorshift;
use common::{edge, finished, job_with, long_edge, point_edge, sample_job};

const LIMIT: i32 = 1_000_000;

/// What turned up over all the spots.
#[derive(Default, Debug)]
struct Notes {
    spots: usize,
    reads: usize,
    nodes: usize,
    /// Spots where several edges attain hi.
    shared: usize,
    /// Spots named for an edge after the first.
    later_edge: usize,
    /// Nodes with halves that were skipped at exactly the least hi.
    ties: usize,
}

/// Checks a job's lookups at these spots.
fn check(job: &Job, spots: &[[i32; 2]], notes: &mut Notes) {
    let Ok(trees) = grow(job) else { return };
    let store = store_numbers(&trees);
    for &[x, y] in spots {
        let found = lookup(&trees, x, y).unwrap();
        let wanted = plain_lookup(&trees, [x, y]);
        let Nearest { lo, hi, edge } = found.nearest;
        assert_eq!((i128::from(lo), i128::from(hi)), (wanted.lo, wanted.hi));
        assert_eq!(edge, wanted.edges[0], "{x} {y} {job:?}");
        let steps = step_through(&store, [x, y]);
        assert_eq!(found.reads, steps.reads, "{x} {y} {job:?}");
        notes.spots += 1;
        notes.reads += found.reads;
        notes.nodes += node_count(&trees);
        notes.shared += usize::from(wanted.edges.len() > 1);
        notes.later_edge += usize::from(edge > 0);
        notes.ties += steps.ties;
    }
    // The entry gives the same.
    let [x, y] = spots[0];
    let found = lookup(&trees, x, y).unwrap();
    assert_eq!(point_with_reads(job, x, y, &store), Ok(found));
    assert_eq!(point(job, x, y, &store), Ok(found.nearest));
}

/// The outline point at k/1024, each number rounded down.
fn on_outline(edge: &Edge, k: i64) -> [i32; 2] {
    edge_point(edge, k).map(|number| (number >> 30) as i32)
}

/// Ends and other points of every edge, between two of them, about the plate,
/// and far off.
fn spots(rng: &mut Xorshift, job: &Job) -> Vec<[i32; 2]> {
    let edges: Vec<Edge> = job.edges().collect();
    let mut spots = vec![[job.x, job.y], [0, 0]];
    for edge in &edges {
        spots
            .extend([0, 1_024, 512, rng.between(0, 1_024)].map(|k| on_outline(edge, i64::from(k))));
        let [x, y, ..] = edge.place();
        spots.push([x + rng.between(-20, 20), y + rng.between(-20, 20)]);
    }
    let mut pick = || {
        let edge = rng.choose(&edges);
        on_outline(&edge, i64::from(rng.between(0, 1_024)))
    };
    let (a, b) = (pick(), pick());
    spots.push([0, 1].map(|c| (a[c] + b[c]).div_euclid(2)));
    spots.push([rng.between(-LIMIT, LIMIT), rng.between(-LIMIT, LIMIT)]);
    spots.push([rng.choose(&[-LIMIT, LIMIT]), rng.choose(&[-LIMIT, LIMIT])]);
    spots
        .into_iter()
        .map(|spot| spot.map(|number| number.clamp(-LIMIT, LIMIT)))
        .collect()
}

#[test]
fn random_jobs_and_spots() {
    let mut rng = Xorshift::new(0x1007_0b5e);
    let mut notes = Notes::default();
    for _ in 0..3_000 {
        let job = random_job(&mut rng, 0);
        let spots = spots(&mut rng, &job);
        check(&job, &spots, &mut notes);
    }
    assert!(
        notes.spots > 20_000 && notes.later_edge > 2_000,
        "{notes:?}"
    );
    assert!(2 * notes.reads < notes.nodes, "{notes:?}");
}

/// Coarse numbers make equal lengths common.
#[test]
fn coarse_jobs_and_spots() {
    let mut rng = Xorshift::new(0xc0a7_5e00);
    let mut notes = Notes::default();
    for _ in 0..3_000 {
        let job = coarse_job(&mut rng, 0);
        let spots = spots(&mut rng, &job);
        check(&job, &spots, &mut notes);
    }
    assert!(notes.spots > 20_000 && notes.ties > 100, "{notes:?}");
}

/// The edge on the other side of an upright at `x`.
fn mirrored(edge: &Edge, x: i32) -> Edge {
    let mut place = edge.place();
    for number in place.iter_mut().step_by(2) {
        *number = 2 * x - *number;
    }
    Edge::of(edge.mark(), &place)
}

/// Each edge and its mirror image, asked from between them: most often both
/// attain hi, and the first is to be named, whichever it is.
#[test]
fn equal_edges_on_both_sides() {
    let mut rng = Xorshift::new(0x3177_0e0d);
    let mut notes = Notes::default();
    for _ in 0..1_500 {
        let job = coarse_job(&mut rng, 0);
        let x = 64 * rng.between(-99, 99);
        let edges: Vec<Edge> = job.edges().collect();
        let images: Vec<Edge> = edges.iter().map(|edge| mirrored(edge, x)).collect();
        let by_pairs: Vec<Edge> = edges
            .iter()
            .zip(&images)
            .flat_map(|(&edge, &image)| [edge, image])
            .collect();
        let from_x = |y: i32| [x, y.clamp(-LIMIT, LIMIT)];
        let heights = [job.y, job.places[1], job.places[7], 0, LIMIT].map(from_x);
        for edges in [
            [edges.clone(), images.clone()].concat(),
            [images, edges].concat(),
            by_pairs,
        ] {
            check(&job_with(&edges, job.grain), &heights, &mut notes);
        }
    }
    assert!(notes.spots > 10_000 && notes.shared > 5_000, "{notes:?}");
}

/// Sixty-four edges, some of them twice.
#[test]
fn many_edges() {
    let mut rng = Xorshift::new(0x64ed_9e50);
    let mut notes = Notes::default();
    for _ in 0..60 {
        let mut job = job_with(&[], 32);
        while job.count < 64 {
            let more: Vec<Edge> = coarse_job(&mut rng, 0).edges().collect();
            for edge in more.iter().chain(&more[..1]).take(64 - job.count) {
                job.add(edge);
            }
        }
        assert_eq!(judge(&job), Ok(()));
        let spots = spots(&mut rng, &job);
        check(&job, &spots, &mut notes);
    }
    assert!(notes.spots > 10_000 && notes.shared > 2_000, "{notes:?}");
    assert!(4 * notes.reads < notes.nodes, "{notes:?}");
}

/// What the long edge at grain 489 gives: hi and reads.
fn long_lookup(spot: [i32; 2]) -> (Nearest, usize) {
    let trees = grow(&job_with(&[long_edge()], 489)).unwrap();
    let found = lookup(&trees, spot[0], spot[1]).unwrap();
    (found.nearest, found.reads)
}

/// The first leaf ends 15,625 fine units from the origin, after 11 nodes. On the
/// way back up each of the 10 right halves is read. The first starts at 15,624
/// and so is asked, to no avail; the others are skipped.
#[test]
fn the_long_edge_from_its_first_end() {
    let job = job_with(&[long_edge()], 489);
    let store = finished(&job).unwrap().store;
    assert_eq!(store.len(), 22_517);
    let wanted = Nearest {
        lo: 0,
        hi: 15_625 * 15_625,
        edge: 0,
    };
    assert_eq!(wanted.hi, 244_140_625);
    assert_eq!(long_lookup([0, 0]), (wanted, 21));
    let steps = step_through(&store, [0, 0]);
    assert_eq!((steps.reads, steps.skipped), (21, 9));
    // From above, the same nodes by the same differences.
    let (nearest, reads) = long_lookup([0, LIMIT]);
    assert_eq!(
        (nearest.hi, reads),
        (16_000_000_i64.pow(2) + 244_140_625, 21)
    );
    assert_eq!(grow(&job_with(&[long_edge()], 488)), Err(Refusal::Long));
}

/// The farther along the spot, the more leaves come before the nearest: each is
/// nearer than those before it, so none is skipped up to there.
#[test]
fn the_long_edge_from_its_middle_and_last_end() {
    let (nearest, reads) = long_lookup([500_000, 0]);
    assert_eq!((nearest.lo, nearest.hi), (0, 243_890_689));
    assert_eq!((nearest.edge, reads), (0, 1_043));
    let (nearest, reads) = long_lookup([999_999, 0]);
    assert_eq!((nearest.lo, nearest.hi), (0, 244_140_625));
    assert_eq!((nearest.edge, reads), (0, 2_047));
}

fn reads(edges: &[Edge], grain: i32) -> usize {
    let trees = grow(&job_with(edges, grain)).unwrap();
    lookup(&trees, 0, 0).unwrap().reads
}

/// What one edge has shown counts for those after it.
#[test]
fn the_least_hi_goes_on_to_the_next_edge() {
    let raised = edge([0, 333_333, 666_666, 999_999], [900_000; 4]);
    assert_eq!(reads(&[long_edge(), raised], 489), 21 + 1);
    assert_eq!(reads(&[raised, long_edge()], 489), 21 + 21);
    assert_eq!(reads(&[long_edge(), raised, raised, raised], 489), 21 + 3);
    // A copy is as near as the first, until its own first leaf is asked.
    assert_eq!(reads(&[long_edge(); 64], 489), 64 * 21);
    // At a point edge hi is 0, and nothing is nearer than that.
    assert_eq!(reads(&[point_edge(0), long_edge()], 489), 1 + 1);
    assert_eq!(reads(&[point_edge(0), point_edge(0)], 489), 1 + 1);
}

/// The bend at grain 7 has leaves from (-12, 0) to (48, 96) and from (36, 96) to
/// (192, 192). From the origin hi is 48² + 96² = 11,520, and the right leaf is
/// asked because its lo is 36² + 96² = 10,512. At the other end, (192, 192), it
/// is the nearer one, with hi 156² + 96² = 33,552.
#[test]
fn the_reads_of_three_nodes() {
    let trees = grow(&job_with(&[edge([0, 0, 4, 12], [0, 4, 8, 12])], 7)).unwrap();
    let ask = |x, y| lookup(&trees, x, y).unwrap();
    let at_origin = ask(0, 0);
    assert_eq!((at_origin.nearest.lo, at_origin.nearest.hi), (0, 11_520));
    assert_eq!(at_origin.reads, 3);
    let at_end = ask(12, 12);
    assert_eq!((at_end.nearest.lo, at_end.nearest.hi), (0, 33_552));
    assert_eq!(at_end.reads, 3);
}

#[test]
fn without_edges_there_is_no_bound() {
    assert_eq!(lookup(&[], 0, 0), None);
    let found = lookup(&grow(&sample_job()).unwrap(), 3, 4).unwrap();
    let wanted = Nearest {
        lo: 6_400,
        hi: 6_400,
        edge: 0,
    };
    assert_eq!((found.nearest, found.reads), (wanted, 1));
}
