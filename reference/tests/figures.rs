//! Every line of RULES, "Figures".

mod common;

use clearance_reference::strips::{Piece, Strip};
use clearance_reference::{point, read, Job, Refusal};
use common::{edge, finished, job_with, long_edge, sample_job, SAMPLE_SHEET};

const BEND_X: [i32; 4] = [0, 0, 4, 12];
const BEND_Y: [i32; 4] = [0, 4, 8, 12];

fn strip(centre: [i64; 2], axis: [i64; 2], half_box: [i64; 2]) -> Strip {
    Strip {
        centre,
        axis,
        half_box,
    }
}

/// Centre, axis and box of the whole piece in x.
fn whole_in_x(controls: [i32; 4]) -> (i64, i64, i64) {
    let strip = Strip::of(&edge(controls, [0; 4]), Piece::WHOLE);
    assert_eq!(
        (strip.centre[1], strip.axis[1], strip.half_box[1]),
        (0, 0, 0)
    );
    (strip.centre[0], strip.axis[0], strip.half_box[0])
}

/// In x the power form is 12 t², in y it is 12 t, and no quotient of the three
/// pieces has a remainder: the boxes are the second quotients, 24 and 6.
#[test]
fn the_bend_and_its_halves() {
    let bend = edge(BEND_X, BEND_Y);
    let whole = Strip::of(&bend, Piece::WHOLE);
    assert_eq!(whole, strip([72, 96], [96, 96], [24, 0]));
    let halves = Piece::WHOLE.halves().unwrap();
    let [left, right] = halves.map(|half| Strip::of(&bend, half));
    assert_eq!(left, strip([18, 48], [24, 48], [6, 0]));
    assert_eq!(right, strip([114, 144], [72, 48], [6, 0]));
}

/// Its half sides are 96 + 24 and 96, and 120 is at most 16 * 8 = 128. They are
/// those of its box about (72, 96).
#[test]
fn the_bend_is_a_leaf_at_grain_8() {
    let done = finished(&job_with(&[edge(BEND_X, BEND_Y)], 8)).unwrap();
    assert_eq!(done.nodes, 1);
    assert_eq!(done.store, [72, 96, 96, 96, 24, 0, 1, -48, 0, 192, 192]);
}

/// 120 exceeds 16 * 7 = 112; of the halves the right one is larger, 72 + 6. The
/// box of the first node is that of its halves: its own strip starts at -48.
#[test]
fn the_bend_halves_at_grain_7() {
    let done = finished(&job_with(&[edge(BEND_X, BEND_Y)], 7)).unwrap();
    assert_eq!(done.nodes, 3);
    let wanted = [
        [72, 96, 96, 96, 24, 0, 3, -12, 0, 192, 192],
        [18, 48, 24, 48, 6, 0, 1, -12, 0, 48, 96],
        [114, 144, 72, 48, 6, 0, 1, 36, 96, 192, 192],
    ];
    assert_eq!(done.store, wanted.as_flattened());
}

/// With 32 the quotients are 160, 240, 96 and 16, all whole. A thirty-second
/// of them is 5, 15/2, 3 and 1/2: two remainders, so a pad of 1.
#[test]
fn whole_pieces_in_one_coordinate() {
    assert_eq!(whole_in_x([0, 0, 0, 32]), (160, 240, 96 + 16));
    assert_eq!(whole_in_x([0, 0, 0, 1]), (5, 8, 3 + 1 + 1));
    assert_eq!(whole_in_x([0, 0, 0, -1]), (-5, -7, 3 + 1));
}

/// At depth 10 the axis is 15,999,984/2,048, just above 7,812, and the centre an
/// odd multiple of it: two remainders, and 7,812 + 1 lies between 16 * 488 and
/// 16 * 489. At depth 9 the axis is twice as long.
#[test]
fn the_long_edge_needs_grain_489() {
    let last = (0..10).fold(Piece::WHOLE, |piece, _| piece.halves().unwrap()[1]);
    let wanted = strip([15_992_172, 0], [7_812, 0], [1, 0]);
    assert_eq!(Strip::of(&long_edge(), last), wanted);
    let accepted = finished(&job_with(&[long_edge()], 489)).unwrap();
    assert_eq!(accepted.nodes, 2_047);
    assert_eq!(accepted.store.len(), 22_517);
    let refused = finished(&job_with(&[long_edge()], 488));
    assert_eq!(refused.err(), Some(Refusal::Long));
}

/// The strip is the point itself, (48, 64) fine units from the spot.
#[test]
fn the_point_edge_asked_at_3_4() {
    let job = sample_job();
    let done = finished(&job).unwrap();
    assert_eq!(done.store, [0, 0, 0, 0, 0, 0, 1, 0, 0, 0, 0]);
    let nearest = point(&job, 3, 4, &done.store).unwrap();
    assert_eq!((nearest.lo, nearest.hi, nearest.edge), (6_400, 6_400, 0));
}

#[test]
fn sixty_four_edges_and_no_more() {
    let line = "(edge (0 0) (0 0) (0 0) (0 0))\n";
    let sheet = |count: usize| SAMPLE_SHEET.replace(line, &line.repeat(count));
    let job = read(sheet(64).as_bytes()).unwrap();
    assert_eq!(job.count, 64);
    assert_eq!(finished(&job).unwrap().nodes, 64);
    assert_eq!(read(sheet(65).as_bytes()), Err(Refusal::Edges));
}

#[test]
fn the_cell_against_the_plate() {
    let map_with = |n, m| {
        let job = Job {
            n,
            m,
            ..sample_job()
        };
        finished(&job).map(|done| done.letters.len())
    };
    for n in 0..=20 {
        assert_eq!(map_with(n, n), Ok(1));
        if n < 20 {
            assert_eq!(map_with(n, n + 1), Err(Refusal::Cell));
        }
        if n >= 8 {
            assert_eq!(map_with(n, n - 8), Ok(65_536));
        }
        if n >= 9 {
            assert_eq!(map_with(n, n - 9), Err(Refusal::Cell));
        }
    }
}
