//! Straight edges: the worked figures of lines, sheets that mix them with
//! cubics, what is refused, and a line's map against many of its points.

mod common;

use clearance_reference::strips::{Piece, Strip};
use clearance_reference::Refusal::{Edges, Form, Long, Range};
use clearance_reference::{judge, listing, map, point, points, read, write, Edge, Job, Refusal};
use common::random::Xorshift;
use common::{edge, finished, job_with, line, point_edge, sample_job, Finished};
use common::{SAMPLE_MAP, SAMPLE_SHEET};

const EDGE_LINE: &str = "(edge (0 0) (0 0) (0 0) (0 0))\n";
const POINT_LINE: &str = "(line (0 0) (0 0))\n";

/// The sample sheet with other edge lines.
fn sheet_with(edges: &str) -> String {
    SAMPLE_SHEET.replace(EDGE_LINE, edges)
}

fn written(job: &Job) -> String {
    let mut lent = [0; 8_192];
    let length = write(job, &mut lent).unwrap();
    String::from_utf8(lent[..length].to_vec()).unwrap()
}

fn strip(centre: [i64; 2], axis: [i64; 2], half_box: [i64; 2]) -> Strip {
    Strip {
        centre,
        axis,
        half_box,
    }
}

/// The leftmost piece of a depth.
fn first_piece(depth: u32) -> Piece {
    (0..depth).fold(Piece::WHOLE, |piece, _| piece.halves().unwrap()[0])
}

/// The map's rows from the lowest.
fn rows(done: &Finished) -> Vec<String> {
    let rows = done.letters.chunks(done.letters.len().isqrt());
    rows.map(|row| String::from_utf8(row.to_vec()).unwrap())
        .collect()
}

#[test]
fn whole_quotients_have_no_box() {
    let slant = line([0, 0, 12, -7]);
    let whole = Strip::of(&slant, Piece::WHOLE);
    assert_eq!(whole, strip([96, -56], [96, -56], [0, 0]));
    let [left, right] = Piece::WHOLE
        .halves()
        .unwrap()
        .map(|half| Strip::of(&slant, half));
    assert_eq!(left, strip([48, -28], [48, -28], [0, 0]));
    assert_eq!(right, strip([144, -84], [48, -28], [0, 0]));
}

#[test]
fn halves_go_up_and_add_to_the_box() {
    let slant = line([0, 0, 17, -17]);
    let wanted = strip([9, -8], [9, -8], [2, 2]);
    assert_eq!(Strip::of(&slant, first_piece(4)), wanted);
    let wanted = strip([4, -4], [4, -4], [2, 2]);
    assert_eq!(Strip::of(&slant, first_piece(5)), wanted);

    let done = finished(&job_with(&[slant], 1)).unwrap();
    assert_eq!(done.nodes, 31);
    let leaf = done.store.chunks(11).find(|node| node[6] == 1).unwrap();
    assert_eq!(leaf, [9, -8, 9, -8, 2, 2, 1, -2, -18, 20, 2]);
}

/// The coordinates are counted apart. In one of them both quotients are whole
/// or neither, since the middle is an odd number of halves away.
#[test]
fn each_coordinate_has_its_own_box() {
    let strip_at = |ends, depth| Strip::of(&line(ends), first_piece(depth));
    let upright = strip_at([1, 0, 1, 32], 9);
    assert_eq!(upright, strip([16, 1], [0, 1], [0, 2]));
    let level = strip_at([0, -1, -32, -1], 9);
    assert_eq!(level, strip([0, -16], [0, 0], [2, 0]));
    let still = strip_at([5, -5, 5, -5], 10);
    assert_eq!(still, strip([80, -80], [0, 0], [0, 0]));
}

#[test]
fn the_longest_lines() {
    let nodes = |ends: [i32; 4], grain| finished(&job_with(&[line(ends)], grain));
    let longest = [-1_000_000, 0, 1_000_000, 0];
    assert_eq!(nodes(longest, 977).unwrap().nodes, 2_047);
    assert_eq!(nodes(longest, 976).err(), Some(Long));
    assert_eq!(nodes(longest, 1).err(), Some(Long));
    let uneven = [0, 0, 999_999, 0];
    assert!(nodes(uneven, 489).is_ok());
    assert_eq!(nodes(uneven, 488).err(), Some(Long));
}

#[test]
fn a_line_of_one_point_draws_the_sample() {
    let job = read(sheet_with(POINT_LINE).as_bytes()).unwrap();
    assert_eq!(job, job_with(&[line([0; 4])], 1));
    let done = finished(&job).unwrap();
    assert_eq!(done.store, [0, 0, 0, 0, 0, 0, 1, 0, 0, 0, 0]);
    assert_eq!(listing::map(&done.letters), SAMPLE_MAP);
    let nearest = point(&job, 3, 4, &done.store).unwrap();
    assert_eq!((nearest.lo, nearest.hi, nearest.edge), (6_400, 6_400, 0));
}

#[test]
fn a_slanting_line_is_mapped() {
    let done = finished(&job_with(&[line([-6, -6, 6, 6])], 1)).unwrap();
    let wanted = [
        "DDDDCCCC", "DIIDDCCC", "DIIIDDCC", "DDIIDDDC", "CDDDIIDD", "CCDDIIID", "CCCDDIID",
        "CCCCDDDD",
    ];
    assert_eq!(rows(&done), wanted);
}

#[test]
fn a_line_and_a_cubic_are_mapped() {
    let sheet = sheet_with("(line (-8 0) (0 0))\n(edge (0 0) (4 0) (4 4) (4 8))\n")
        .replace("(reach 4)", "(reach 2)");
    let job = read(sheet.as_bytes()).unwrap();
    assert_eq!(job.marks[..3], [1, 0, 0]);
    assert_eq!(
        job.places[..16],
        [-8, 0, 0, 0, 0, 0, 0, 0, 0, 0, 4, 0, 4, 4, 4, 8]
    );
    assert_eq!(written(&job), sheet);
    // The line touches the reach in the third and the sixth row, which settles
    // their first three cells. The cubic's first leaf is padded by 2, so it is
    // 30 and 28 fine units from the fourth of them, and the reach is 32.
    let wanted = [
        "CCCCCCCC", "CCCCCCCC", "CCCDDCCC", "DDDDDDDC", "DDDDDDDC", "CCCDDDDD", "CCCCDDDD",
        "CCCCDDDD",
    ];
    assert_eq!(rows(&finished(&job).unwrap()), wanted);
}

/// Sheets with a kind of edge for each letter, in every order of five.
#[test]
fn mixed_sheets_keep_their_bytes() {
    for kinds in 0..32 {
        let mut edges = String::new();
        for bit in 0..5 {
            edges += &match kinds >> bit & 1 {
                0 => format!("(edge ({bit} 1) (2 -3) (44 5) (-6 -777))\n"),
                _ => format!("(line ({bit} -1000000) (1000000 0))\n"),
            };
        }
        let sheet = sheet_with(&edges);
        let job = read(sheet.as_bytes()).unwrap();
        let marks = [0, 1, 2, 3, 4].map(|bit| kinds >> bit & 1);
        assert_eq!((job.count, &job.marks[..5]), (5, &marks[..]));
        assert_eq!(written(&job), sheet);
    }
}

#[test]
fn the_longest_sheet_of_lines_comes_back() {
    let mut job = job_with(&[line([-1_000_000; 4]); 64], 100_000);
    (job.x, job.y) = (-1_000_000, -1_000_000);
    assert_eq!(read(written(&job).as_bytes()), Ok(job));
}

#[test]
fn broken_lines() {
    for edges in [
        "(line (0 0))\n",
        "(line (0 0) (0 0) (0 0))\n",
        "(line (0 0) (0 0) (0 0) (0 0))\n",
        "(edge (0 0) (0 0))\n",
        "(line  (0 0) (0 0))\n",
        "(line (0  0) (0 0))\n",
        "(line (0 0)  (0 0))\n",
        "(line (0 0)(0 0))\n",
        "(line (0 0) (0 0) )\n",
        "(line (0 0) (0 0)\n",
        "(line 0 0 0 0)\n",
        "(line (0 0 0 0))\n",
        "(line (0 0) (0 -0))\n",
        "(line (-0 0) (0 0))\n",
        "(line (0 0) (0 00))\n",
        "(line (0 0) (0 10000000))\n",
        "(Line (0 0) (0 0))\n",
        "(lines (0 0) (0 0))\n",
        "(line (0 0) (0 0))\r\n",
        "(line (0 0) (0 0))\n(grain 1)\n",
    ] {
        let sheet = sheet_with(edges);
        assert_eq!(read(sheet.as_bytes()), Err(Form), "{edges}");
    }
    let early = SAMPLE_SHEET.replace("(grain 1)\n", "(line (0 0) (0 0))\n(grain 1)\n");
    assert_eq!(read(early.as_bytes()), Err(Form));
}

#[test]
fn lines_count_among_the_edges() {
    let sheet = |edges: usize, lines: usize| {
        let text = sheet_with(&(EDGE_LINE.repeat(edges) + &POINT_LINE.repeat(lines)));
        read(text.as_bytes()).map(|job| job.count)
    };
    assert_eq!(sheet(0, 64), Ok(64));
    assert_eq!(sheet(32, 32), Ok(64));
    assert_eq!(sheet(0, 65), Err(Edges));
    assert_eq!(sheet(33, 32), Err(Edges));
    // So many fit the longest sheet and no more.
    assert_eq!(sheet(0, 428), Err(Edges));
    assert_eq!(sheet(0, 429), Err(Form));
}

#[test]
fn ranges_of_a_line() {
    for place in 0..4 {
        for (number, wanted) in [
            (1_000_000, None),
            (-1_000_000, None),
            (1_000_001, Some(Range)),
            (-1_000_001, Some(Range)),
        ] {
            let mut ends = [0; 4];
            ends[place] = number;
            let [x0, y0, x1, y1] = ends;
            let sheet = sheet_with(&format!("(line ({x0} {y0}) ({x1} {y1}))\n"));
            assert_eq!(read(sheet.as_bytes()).err(), wanted);
            assert_eq!(judge(&job_with(&[line(ends)], 1)).err(), wanted);
        }
    }
}

/// Asks every entry but the reader; each must give this refusal.
fn check_job(job: &Job, refusal: Refusal) {
    assert_eq!(judge(job), Err(refusal), "{job:?}");
    assert_eq!(write(job, &mut [0; 8_192]), Err(refusal));
    assert_eq!(map(job, &mut [0; 700], &mut [0; 64]), Err(refusal));
    assert_eq!(point(job, 0, 0, &[0; 11]), Err(refusal));
    assert_eq!(points(job, &[0, 0], &[0; 11], &mut [0; 3]), Err(refusal));
}

#[test]
fn other_marks_are_out_of_range() {
    for mark in [2, -1, 3, i32::MIN, i32::MAX] {
        for place in [0, 1, 63] {
            let mut job = sample_job();
            job.marks[place] = mark;
            check_job(&job, Range);
            job.count = 64;
            check_job(&job, Range);
            // The count is judged before any mark.
            for count in [0, 65, usize::MAX] {
                job.count = count;
                check_job(&job, Edges);
            }
        }
    }
}

#[test]
fn a_mark_past_the_count_is_out_of_range() {
    for place in [1, 2, 63] {
        let mut job = sample_job();
        job.marks[place] = 1;
        check_job(&job, Range);
        job.count = place;
        check_job(&job, Range);
        job.count = place + 1;
        assert_eq!(judge(&job), Ok(()));
        job.count = 0;
        check_job(&job, Edges);
    }
}

#[test]
fn the_last_four_numbers_of_a_line_are_zero() {
    for place in 4..8 {
        for number in [1, -1, 1_000_000, i32::MIN, i32::MAX] {
            let mut job = job_with(&[point_edge(0), line([0, 0, 5, 5])], 1);
            job.places[8 + place] = number;
            check_job(&job, Range);
            // The same numbers of a cubic count as coordinates.
            job.marks[1] = 0;
            let is_coordinate = number.unsigned_abs() <= 1_000_000;
            assert_eq!(judge(&job).is_ok(), is_coordinate);
        }
    }
}

/// The parts of the fine polygon.
const PARTS: i64 = 4_096;

/// Squared distance, times `PARTS` squared, of the nearest and the farthest spot
/// of a cell from a line's point at k/4096.
fn near_and_far(job: &Job, index: usize, ends: [i32; 4], k: i64) -> (i128, i128) {
    let side = 1_usize << (job.n - job.m);
    let corners = [(job.x, index % side), (job.y, index / side)];
    let (mut near, mut far) = (0, 0);
    for (c, (corner, cell)) in corners.into_iter().enumerate() {
        let [a, b] = [ends[c], ends[c + 2]].map(i64::from);
        let at = a * (PARTS - k) + b * k;
        let low = PARTS * (i64::from(corner) + ((cell as i64) << job.m));
        let high = low + (PARTS << job.m);
        near += i128::from((low - at).max(at - high).max(0)).pow(2);
        far += i128::from((at - low).abs().max((at - high).abs())).pow(2);
    }
    (near, far)
}

/// A fine polygon of a line's points, held against its map: none of them is
/// nearer than the reach to a clear cell, and one is nearer than the reach to
/// all of an inside cell. Every line has cells of both kinds.
#[test]
fn a_map_against_a_fine_polygon() {
    let mut rng = Xorshift::new(0x0117_e500);
    for _ in 0..40 {
        let ends = [(); 4].map(|()| rng.between(-90, 90));
        let mut job = job_with(&[line(ends)], rng.between(1, 9));
        (job.x, job.y, job.n, job.m) = (-128, -128, 8, 4);
        job.reach = rng.between(25, 60);
        let done = finished(&job).unwrap();
        let reach = i128::from(PARTS * i64::from(job.reach)).pow(2);
        for (index, letter) in done.letters.iter().enumerate() {
            let seen = (0..=PARTS).map(|k| near_and_far(&job, index, ends, k));
            let (near, far) = seen.reduce(|a, b| (a.0.min(b.0), a.1.min(b.1))).unwrap();
            match letter {
                b'C' => assert!(near >= reach, "{job:?}"),
                b'I' => assert!(far < reach, "{job:?}"),
                _ => assert_eq!(*letter, b'D'),
            }
        }
        assert!(done.letters.contains(&b'C') && done.letters.contains(&b'I'));
    }
}

/// A cubic with both inner control points at thirds is the same outline, so a
/// C and an I never stand on the same cell of the two maps.
#[test]
fn a_line_and_its_cubic_never_quarrel() {
    let mut rng = Xorshift::new(0x5157_e200);
    let mut settled = 0;
    for _ in 0..300 {
        let [x, y, u, v] = [(); 4].map(|()| rng.between(-30, 30));
        let straight = line([x, y, x + 3 * u, y + 3 * v]);
        let cubic = edge(
            [x, x + u, x + 2 * u, x + 3 * u],
            [y, y + v, y + 2 * v, y + 3 * v],
        );
        let maps = [straight, cubic].map(|edge: Edge| {
            let mut job = job_with(&[edge], 3);
            (job.x, job.y, job.n, job.m, job.reach) = (-128, -128, 8, 3, 40);
            finished(&job).unwrap().letters
        });
        for (one, other) in maps[0].iter().zip(&maps[1]) {
            assert!(one == other || [one, other].contains(&&b'D'));
            settled += usize::from(one == other && *one != b'D');
        }
    }
    assert!(settled > 200_000, "{settled}");
}
