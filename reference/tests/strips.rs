//! Strips and stores against the points of the outline, and the shape of the store.

mod common;

use clearance_reference::strips::{Piece, Strip, DEEPEST};
use clearance_reference::trees::{grow, store_numbers, Tree, NUMBERS_A_NODE, STORE_LIMIT};
use clearance_reference::Edge;
use common::brute_force::edge_point;
use common::jobs::random_job;
use common::random::Xorshift;
use common::reckoning::{check_strip, piece_controls, Reckoned};
use common::{edge, finished, job_with, just_short_edge, long_edge, piece_at};

/// A fine unit, in the scale of the outline's points.
const FINE: i128 = 1 << 30;

/// How far, in x and in y, the outline is from the point of the axis at the same
/// parameter k/1024. That is (m + e)/N, so e times 1024 is whole.
fn deviation(edge: &Edge, piece: Piece, strip: &Strip, k: i64) -> [i128; 2] {
    let half_steps = 1_i64 << (piece.depth() + 1);
    let offset = k * half_steps - 1_024 * (2 * i64::from(piece.index()) + 1);
    let point = edge_point(edge, k);
    [0, 1].map(|c| {
        let exact = 16 * i128::from(point[c]);
        let middle = i128::from(strip.centre[c]) * FINE;
        let along = i128::from(strip.axis[c]) * i128::from(offset) * (FINE >> 10);
        (exact - middle - along).abs()
    })
}

/// The first and the last k of a piece.
fn ends(piece: Piece) -> [i64; 2] {
    let width = 1_024 >> piece.depth();
    let first = i64::from(piece.index()) * width;
    [first, first + width]
}

/// The affine form must hold the outline at every parameter, with the same
/// parameter in x and y: here at all the k/1024 of the piece.
fn check_enclosure(edge: &Edge, piece: Piece, strip: &Strip) {
    let [first, last] = ends(piece);
    for k in first..=last {
        let off = deviation(edge, piece, strip, k);
        for (off, half) in off.into_iter().zip(strip.half_box) {
            assert!(off <= i128::from(half) * FINE, "{edge:?} {piece:?}");
        }
    }
}

/// The same for a cubic at 33 parameters of the piece, however deep it is, from
/// the piece's own control numbers.
fn check_enclosure_within(edge: &Edge, piece: Piece, strip: &Strip) {
    let Edge::Cubic([x0, y0, x1, y1, x2, y2, x3, y3]) = *edge else {
        return;
    };
    for (c, controls) in [[x0, x1, x2, x3], [y0, y1, y2, y3]].into_iter().enumerate() {
        let [p0, p1, p2, p3] = piece_controls(controls, piece);
        let scale = 8_i128.pow(piece.depth()) * 32_i128.pow(3);
        let [middle, axis, half] =
            [strip.centre[c], strip.axis[c], strip.half_box[c]].map(|n| i128::from(n) * scale);
        for j in 0..=32_i128 {
            let l = 32 - j;
            let exact = p0 * l * l * l + 3 * p1 * j * l * l + 3 * p2 * j * j * l + p3 * j * j * j;
            let off = 16 * exact - middle - axis * (j - 16) / 16;
            assert!(off.abs() <= half, "{edge:?} {piece:?}");
        }
    }
}

/// Walks a tree with its pieces; every strip must be the piece's own, halved
/// exactly where it is not short.
fn check_tree(edge: &Edge, piece: Piece, tree: &Tree, grain: i32) {
    let strip = Strip::of(edge, piece);
    assert_eq!(*tree.strip(), strip);
    check_strip(edge, piece, &strip);
    check_enclosure(edge, piece, &strip);
    let short = (0..2).all(|c| strip.axis[c].abs() + strip.half_box[c] <= 16 * i64::from(grain));
    assert_eq!(short, tree.halves().is_none());
    if let Some([left, right]) = tree.halves() {
        assert_eq!(tree.nodes(), 1 + left.nodes() + right.nodes());
        let [left_piece, right_piece] = piece.halves().unwrap();
        check_tree(edge, left_piece, left, grain);
        check_tree(edge, right_piece, right, grain);
    } else {
        assert_eq!((tree.nodes(), tree.leaves()), (1, vec![&strip]));
    }
}

#[test]
fn strips_hold_the_outline() {
    let mut rng = Xorshift::new(0x9e37_79b9);
    for _ in 0..300 {
        let job = random_job(&mut rng, 3);
        for (edge, tree) in job.edges().zip(grow(&job).unwrap_or_default()) {
            check_tree(&edge, Piece::WHOLE, &tree, job.grain);
        }
    }
}

/// Centre, axis and box of a piece of a cubic in one coordinate, which must be
/// the same in x and in y, whatever the other coordinate's numbers are.
fn side(controls: [i32; 4], piece: Piece) -> (i64, i64, i64) {
    let odd = [3, -7, 1, 0];
    let [flat, x, y] = [
        edge(controls, [0; 4]),
        edge(controls, odd),
        edge(odd, controls),
    ]
    .map(|edge| Strip::of(&edge, piece));
    let of = |strip: Strip, c: usize| (strip.centre[c], strip.axis[c], strip.half_box[c]);
    assert_eq!((of(flat, 0), of(flat, 1)), (of(x, 0), (0, 0, 0)));
    assert_eq!(of(x, 0), of(y, 1));
    of(x, 0)
}

/// A piece worked out by hand: control numbers, depth, index; the quotients of
/// centre, axis, second and third over one denominator; how many of them have a
/// remainder; and what the strip then is.
type Worked = (
    [i32; 4],
    (u32, u32),
    ([i64; 4], i64),
    usize,
    (i64, i64, i64),
);

/// One remainder alone there is not; see `one_remainder_never_comes_alone`.
const WORKED: [Worked; 22] = [
    // None: a point, a straight run, parabolas and a cubic, and these negated.
    ([5; 4], (10, 1_023), ([80, 0, 0, 0], 1), 0, (80, 0, 0)),
    ([-5; 4], (10, 0), ([-80, 0, 0, 0], 1), 0, (-80, 0, 0)),
    ([0, 1, 2, 3], (3, 7), ([45, 3, 0, 0], 1), 0, (45, 3, 0)),
    (
        [0, -1, -2, -3],
        (3, 7),
        ([-45, -3, 0, 0], 1),
        0,
        (-45, -3, 0),
    ),
    ([0, 0, 4, 12], (1, 1), ([114, 72, 6, 0], 1), 0, (114, 72, 6)),
    (
        [0, 0, -4, -12],
        (1, 1),
        ([-114, -72, -6, 0], 1),
        0,
        (-114, -72, 6),
    ),
    (
        [0, 0, 0, -32],
        (0, 0),
        ([-160, -240, -96, -16], 1),
        0,
        (-160, -240, 112),
    ),
    // Two: axis and third, centre and second, or centre and axis.
    (
        [0, 0, 0, 1],
        (0, 0),
        ([10, 15, 6, 1], 2),
        2,
        (5, 8, 3 + 1 + 1),
    ),
    (
        [0, 0, 0, -1],
        (0, 0),
        ([-10, -15, -6, -1], 2),
        2,
        (-5, -7, 3 + 1),
    ),
    (
        [-1, 0, 0, -1],
        (1, 0),
        ([-17, 12, -3, 0], 2),
        2,
        (-8, 6, 1 + 1),
    ),
    (
        [1, 0, 0, 1],
        (1, 0),
        ([17, -12, 3, 0], 2),
        2,
        (9, -6, 2 + 1),
    ),
    ([0, 1, 2, 3], (4, 0), ([3, 3, 0, 0], 2), 2, (2, 2, 1)),
    ([0, -1, -2, -3], (4, 0), ([-3, -3, 0, 0], 2), 2, (-1, -1, 1)),
    // Three: each of the four may be the whole one.
    ([0, 0, 1, 3], (2, 0), ([9, 12, 3, 0], 8), 3, (1, 2, 2)),
    (
        [0, 0, -1, -3],
        (2, 0),
        ([-9, -12, -3, 0], 8),
        3,
        (-1, -1, 2),
    ),
    ([0, -2, 1, 1], (2, 2), ([40, 105, 0, -1], 16), 3, (3, 7, 2)),
    (
        [0, 4, 19, -19],
        (2, 0),
        ([251, 264, 9, -4], 8),
        3,
        (31, 33, 1 + 2),
    ),
    (
        [-3, 2, 0, -1],
        (2, 1),
        ([0, 87, -24, 1], 16),
        3,
        (0, 5, 1 + 2),
    ),
    // Four.
    ([0, 0, 0, 1], (1, 0), ([10, 15, 6, 1], 16), 4, (1, 1, 2)),
    (
        [0, 0, 0, -1],
        (1, 0),
        ([-10, -15, -6, -1], 16),
        4,
        (-1, -1, 2),
    ),
    (
        [1, 0, 2, -1],
        (1, 1),
        ([5, -27, -9, -1], 2),
        4,
        (3, -13, 4 + 2),
    ),
    (
        [-1, 0, -2, 1],
        (1, 1),
        ([-5, 27, 9, 1], 2),
        4,
        (-2, 14, 5 + 1 + 2),
    ),
];

#[test]
fn pads_worked_out_by_hand() {
    for (controls, (depth, index), (numerators, denominator), remainders, wanted) in WORKED {
        let is_whole = |number: &&i64| **number % denominator == 0;
        assert_eq!(4 - numerators.iter().filter(is_whole).count(), remainders);
        let piece = piece_at(depth, index);
        assert_eq!(side(controls, piece), wanted, "{controls:?} {piece:?}");
        let [x, _] = Reckoned::both(&edge(controls, [0; 4]), piece).unwrap();
        assert_eq!(x.remainders, remainders, "{controls:?} {piece:?}");
    }
}

/// 3 t² in x: 18, 24 and 6 of the whole piece have no remainder; 9/2 and 3/2 of
/// the left half have one each, as have 57/2 and 3/2 of the right.
#[test]
fn an_exact_piece_with_padded_halves() {
    let parabola = [0, 0, 1, 3];
    assert_eq!(side(parabola, Piece::WHOLE), (18, 24, 6));
    assert_eq!(side(parabola, piece_at(1, 0)), (5, 6, 2 + 1));
    assert_eq!(side(parabola, piece_at(1, 1)), (29, 18, 2 + 1));
}

#[test]
fn each_coordinate_has_its_own_pad() {
    let (exact, padded) = ([0, 0, 4, 12], [0, 0, 0, 1]);
    let boxes = |x, y, piece| Strip::of(&edge(x, y), piece).half_box;
    assert_eq!(boxes(exact, padded, Piece::WHOLE), [24, 5]);
    assert_eq!(boxes(padded, exact, Piece::WHOLE), [5, 24]);
    assert_eq!(boxes(exact, padded, piece_at(1, 0)), [6, 2]);
    assert_eq!(boxes(padded, exact, piece_at(1, 0)), [2, 6]);
}

/// Where a box is one fine unit too small, the outline leaves it: with none,
/// two, three and four remainders. The one with three starts at 4,847/16 and
/// its axis at 317 - 13, which is 17/16 more.
#[test]
fn no_smaller_pad_would_do() {
    for (controls, (depth, index), wanted) in [
        ([0, 0, 4, 12], (0, 0), (72, 96, 24)),
        ([0, 0, 0, -1], (0, 0), (-5, -7, 4)),
        ([17, 28, 28, 17], (4, 1), (317, 13, 2)),
        ([1, 0, 2, -1], (1, 1), (3, -13, 6)),
    ] {
        let piece = piece_at(depth, index);
        assert_eq!(side(controls, piece), wanted);
        let cubic = edge(controls, [0; 4]);
        let strip = Strip::of(&cubic, piece);
        check_enclosure(&cubic, piece, &strip);
        let off = ends(piece).map(|k| deviation(&cubic, piece, &strip, k)[0]);
        assert!(off.iter().any(|&off| off > i128::from(wanted.2 - 1) * FINE));
    }
}

/// A random cubic: small numbers, or coarse ones, or both mixed; in a third of
/// them the highest power is missing in x, so that less is rounded.
fn small_cubic(rng: &mut Xorshift) -> Edge {
    let limit = rng.choose(&[1, 9, 99]);
    let unit = rng.choose(&[1, 1, 2, 16, 64, 512, 4_096]);
    let mut x = [(); 4].map(|()| unit * rng.between(-limit, limit));
    let y = [(); 4].map(|()| rng.between(-limit, limit));
    if rng.below(3) == 0 {
        x[3] = x[0] - 3 * x[1] + 3 * x[2];
    }
    edge(x, y)
}

/// A random piece of each depth, one within the other.
fn nested_pieces(rng: &mut Xorshift) -> Vec<Piece> {
    let halves = |piece: &Piece| piece.halves().map(|halves| rng.choose(&halves));
    std::iter::successors(Some(Piece::WHOLE), halves).collect()
}

/// Small and coarse cubics down to the deepest pieces, with remainders and
/// without.
#[test]
fn strips_of_small_cubics_hold_them() {
    let mut rng = Xorshift::new(0x00c0_ffee);
    let mut remainders = [0; 5];
    for _ in 0..2_000 {
        let cubic = small_cubic(&mut rng);
        for piece in nested_pieces(&mut rng) {
            let strip = Strip::of(&cubic, piece);
            check_strip(&cubic, piece, &strip);
            check_enclosure(&cubic, piece, &strip);
            check_enclosure_within(&cubic, piece, &strip);
            for side in Reckoned::both(&cubic, piece).unwrap() {
                remainders[side.remainders] += 1;
            }
        }
    }
    assert_eq!(remainders[1], 0);
    for count in [0, 2, 3, 4] {
        assert!(remainders[count] > 1_000, "{remainders:?}");
    }
}

/// At e = -1 or e = 1 both noise symbols swing the same way and at full, so
/// without a pad the outline is on the box's side there.
#[test]
fn a_box_without_a_pad_is_touched() {
    let mut rng = Xorshift::new(0x70c4_ed00);
    let (mut touched, mut curved, mut deep) = (0, 0, 0);
    for _ in 0..4_000 {
        let cubic = small_cubic(&mut rng);
        for piece in nested_pieces(&mut rng) {
            let strip = Strip::of(&cubic, piece);
            let off = ends(piece).map(|k| deviation(&cubic, piece, &strip, k));
            let sides = Reckoned::both(&cubic, piece).unwrap();
            for c in [0, 1].into_iter().filter(|&c| sides[c].remainders == 0) {
                let most = off[0][c].max(off[1][c]);
                assert_eq!(most, i128::from(strip.half_box[c]) * FINE, "{cubic:?}");
                touched += 1;
                curved += usize::from(strip.half_box[c] > 0);
                deep += usize::from(strip.half_box[c] > 0 && piece.depth() > 2);
            }
        }
    }
    assert!(touched > 10_000 && curved > 5_000 && deep > 500);
}

/// With e = -m the parameter is 0, and there the affine form, its symbols being
/// 2 e² - 1 and 4 e³ - 3 e, is 16 b0:
/// centre - m axis + (2 m² - 1) second - (4 m³ - 3 m) third.
/// All four factors are odd and the quotients are over a power of two, so the
/// sum would not be whole if just one of them were not.
#[test]
fn one_remainder_never_comes_alone() {
    // Down to depth 3, where the denominator is 4,096, whole multiples of it
    // hold all that c0 and c1 add, and the rest comes round when c2 has grown
    // by 32 or c3 by 1,024. As c2 is 3 times b2 here, b2 goes through 32.
    let pieces = (0..=3).flat_map(|depth| (0..1 << depth).map(move |index| (depth, index)));
    let mut seen = [0_usize; 5];
    for (depth, index) in pieces {
        for (b2, c3) in (0..32).flat_map(|b2| (0..1_024).map(move |c3| (b2, c3))) {
            let cubic = edge([0, 0, b2, c3 + 3 * b2], [0; 4]);
            let [x, _] = Reckoned::both(&cubic, piece_at(depth, index)).unwrap();
            seen[x.remainders] += 1;
        }
    }
    assert_eq!(seen[1], 0);
    assert!([0, 2, 3, 4].iter().all(|&count| seen[count] > 0));
}

/// The nodes of an edge's tree if every cubic's pad were 2; `None` if it is
/// long.
fn nodes_with_pad_two(edge: &Edge, piece: Piece, grain: i32) -> Option<usize> {
    let mut strip = Strip::of(edge, piece);
    if let Some(sides) = Reckoned::both(edge, piece) {
        strip.half_box = sides.map(|side| side.noise + 2);
    }
    if strip.is_short(grain) {
        return Some(1);
    }
    let [left, right] = piece.halves()?;
    let left = nodes_with_pad_two(edge, left, grain)?;
    Some(1 + left + nodes_with_pad_two(edge, right, grain)?)
}

/// No pad exceeds 2, so no piece is halved that a pad of 2 everywhere would
/// leave: such trees are never long for less, and never larger.
#[test]
fn trees_are_no_larger_than_with_a_pad_of_two() {
    let mut rng = Xorshift::new(0x0ade_2000);
    let (mut accepted, mut smaller, mut only_now) = (0, 0, 0);
    let mut check = |edge: Edge, grain: i32| {
        let now = grow(&job_with(&[edge], grain)).map(|trees| trees[0].nodes());
        match nodes_with_pad_two(&edge, Piece::WHOLE, grain) {
            Some(nodes) => {
                assert!(now.unwrap() <= nodes, "{edge:?}");
                accepted += 1;
                smaller += usize::from(now.unwrap() < nodes);
            }
            None => only_now += usize::from(now.is_ok()),
        }
    };
    check(just_short_edge(), 3);
    for _ in 0..20_000 {
        let cubic = small_cubic(&mut rng);
        check(cubic, rng.choose(&[1, 1, 2, 3, 4, 5, 8, 16, 100]));
    }
    assert!(accepted > 10_000 && smaller > 100 && only_now > 0);
    assert!(nodes_with_pad_two(&just_short_edge(), Piece::WHOLE, 3).is_none());
}

#[test]
fn pieces_end_at_the_greatest_depth() {
    let mut piece = Piece::WHOLE;
    for depth in 0..DEEPEST {
        assert_eq!((piece.depth(), piece.index()), (depth, (1 << depth) - 1));
        piece = piece.halves().unwrap()[1];
    }
    assert_eq!(piece.halves(), None);
}

/// Steps over one subtree of a store and gives what follows it.
fn skip_subtree(store: &[i32]) -> &[i32] {
    let (node, mut rest) = store.split_at(NUMBERS_A_NODE);
    let length = NUMBERS_A_NODE * node[6] as usize;
    if node[6] > 1 {
        rest = skip_subtree(skip_subtree(rest));
    }
    assert_eq!(store.len() - rest.len(), length);
    rest
}

#[test]
fn the_store_is_the_trees_in_preorder() {
    let mut rng = Xorshift::new(0x2545_f491);
    for _ in 0..300 {
        let job = random_job(&mut rng, 2);
        let Ok(done) = finished(&job) else { continue };
        let trees = grow(&job).unwrap();
        assert_eq!(done.store, store_numbers(&trees));
        assert_eq!(done.store.len(), NUMBERS_A_NODE * done.nodes);
        let mut rest = &done.store[..];
        for tree in &trees {
            assert_eq!(rest[6] as usize, tree.nodes());
            rest = skip_subtree(rest);
        }
        assert!(rest.is_empty());
    }
}

/// Sixty-four edges, each halved to the greatest depth everywhere.
#[test]
fn the_largest_store() {
    let done = finished(&job_with(&[long_edge(); 64], 489)).unwrap();
    assert_eq!(done.nodes, 131_008);
    assert_eq!(done.store.len(), STORE_LIMIT);
    assert_eq!(STORE_LIMIT, 1_441_088);
}
