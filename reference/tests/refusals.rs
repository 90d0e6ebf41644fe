//! Every refusal in every entry that can give it, and which comes first.

mod common;

use clearance_reference::Refusal::{Cell, Edges, Form, Long, Range, Sheaf, Space, Store, Stranger};
use clearance_reference::{judge, map, point, points, read, write, Job, Refusal};
use common::{edge, finished, job_with, just_short_edge, long_edge};
use common::{point_edge, sample_job, SAMPLE_SHEET};

/// The store of the sample job.
const SAMPLE_STORE: [i32; 11] = [0, 0, 0, 0, 0, 0, 1, 0, 0, 0, 0];

const EDGE_LINE: &str = "(edge (0 0) (0 0) (0 0) (0 0))\n";

fn refused(sheet: &str) -> Option<Refusal> {
    read(sheet.as_bytes()).err()
}

/// The sample sheet with one text replaced by another.
fn changed(from: &str, to: &str) -> String {
    assert!(SAMPLE_SHEET.contains(from), "{from}");
    SAMPLE_SHEET.replacen(from, to, 1)
}

fn with_edges(count: usize, then: &str) -> String {
    changed(EDGE_LINE, &(EDGE_LINE.repeat(count) + then))
}

/// Asks every entry but the reader; each must give this refusal.
fn check_job(job: &Job, refusal: Refusal) {
    assert_eq!(judge(job), Err(refusal));
    assert_eq!(write(job, &mut [0; 8_192]), Err(refusal));
    assert_eq!(write(job, &mut []), Err(refusal));
    assert_eq!(
        map(job, &mut [0; 22_517], &mut [0; 65_536]),
        Err(refusal),
        "{job:?}"
    );
    assert_eq!(map(job, &mut [], &mut []), Err(refusal));
    assert_eq!(point(job, 0, 0, &SAMPLE_STORE), Err(refusal));
    assert_eq!(point(job, 0, 0, &[]), Err(refusal));
    assert_eq!(
        points(job, &[0, 0], &SAMPLE_STORE, &mut [0; 3]),
        Err(refusal)
    );
    assert_eq!(points(job, &[], &[], &mut []), Err(refusal));
}

fn sample_with(change: impl Fn(&mut Job)) -> Job {
    let mut job = sample_job();
    change(&mut job);
    job
}

#[test]
fn numbers_and_words() {
    let words = [
        "form", "edges", "range", "cell", "long", "store", "space", "stranger", "sheaf",
    ];
    assert_eq!(Refusal::ALL.len(), words.len());
    for (index, refusal) in Refusal::ALL.iter().enumerate() {
        assert_eq!(usize::from(refusal.number()), index + 1);
        assert_eq!(refusal.word(), words[index]);
    }
}

#[test]
fn every_truncated_sheet_breaks_the_form() {
    for length in 0..SAMPLE_SHEET.len() {
        assert_eq!(refused(&SAMPLE_SHEET[..length]), Some(Form));
    }
}

#[test]
fn broken_forms() {
    for (from, to) in [
        ("(job\n", " (job\n"),
        ("(job\n", "(job \n"),
        ("(job\n", "(job\r\n"),
        ("(job\n", "(Job\n"),
        ("(job\n", ""),
        ("\n)\n", "\n)\n\n"),
        ("\n)\n", "\n)\n)\n"),
        ("\n)\n", "\n) \n"),
        ("\n)\n", "\n\n)\n"),
        ("\n)\n", "\n)\n\0"),
        ("plate -8 -8 4", "plate -8 -8"),
        ("plate -8 -8 4", "plate -8 -8 4 4"),
        ("plate -8 -8 4", "plate  -8 -8 4"),
        ("plate -8 -8 4", "plate -8\t-8 4"),
        ("(cell 1)\n", "(cell)\n"),
        ("(cell 1)\n", "(cell )\n"),
        ("(cell 1)\n", "(cell 1)"),
        ("(cell 1)\n(reach 4)\n", "(reach 4)\n(cell 1)\n"),
        ("(reach 4)\n", ""),
        ("(reach 4)\n(grain 1)\n", "(grain 1)\n(reach 4)\n"),
        ("(grain 1)\n", "(grain 1)\n(grain 1)\n"),
        (EDGE_LINE, "(edge (0 0) (0 0) (0 0))\n"),
        (EDGE_LINE, "(edge (0 0) (0 0) (0 0) (0 0) (0 0))\n"),
        (EDGE_LINE, "(edge (0 0) (0 0) (0 0)(0 0))\n"),
        (EDGE_LINE, "(edge 0 0 0 0 0 0 0 0)\n"),
        (EDGE_LINE, "(edge (0 0) (0 0) (0 0) (0 0))\n(grain 1)\n"),
    ] {
        assert_eq!(refused(&changed(from, to)), Some(Form), "{from:?} {to:?}");
    }
}

#[test]
fn broken_numbers() {
    for number in [
        "",
        "-",
        "-0",
        "00",
        "07",
        "-07",
        "+1",
        "1.0",
        "12345678",
        "-12345678",
        "00000001",
        "1e3",
        "--1",
        "0x1",
        "1-",
        "\u{661}",
    ] {
        for place in ["-8 -8 4", "1)", "4)\n(g", "1)\n(e", "0 0) (0 0))\n"] {
            let sheet = SAMPLE_SHEET.replacen(place, &place.replacen(leading(place), number, 1), 1);
            assert_eq!(refused(&sheet), Some(Form), "{sheet}");
        }
    }
    // The same numbers well formed are only out of range.
    for number in ["9999999", "-9999999", "1000001", "-1000001"] {
        assert_eq!(refused(&changed("-8", number)), Some(Range));
    }
}

/// The number a text starts with.
fn leading(text: &str) -> &str {
    let end = text.find([' ', ')']).unwrap();
    &text[..end]
}

#[test]
fn the_length_limit_of_a_sheet() {
    // Widening numbers brings a sheet of many edges to any length.
    let sheet = |length: usize| {
        let count = (length - with_edges(0, "").len()) / EDGE_LINE.len();
        let mut text = with_edges(count, "");
        while text.len() < length {
            text = text.replacen("(0 ", "(10 ", 1);
        }
        assert_eq!(text.len(), length);
        text
    };
    assert_eq!(refused(&sheet(8_192)), Some(Edges));
    assert_eq!(refused(&sheet(8_193)), Some(Form));
    assert_eq!(refused(&sheet(20_000)), Some(Form));
}

#[test]
fn edges_before_range() {
    assert_eq!(refused(&with_edges(0, "")), Some(Edges));
    assert_eq!(refused(&with_edges(65, "")), Some(Edges));
    assert_eq!(refused(&with_edges(70, "rubbish\n")), Some(Form));
    let bad = EDGE_LINE.replacen('0', "1000001", 1);
    assert_eq!(refused(&with_edges(64, &bad)), Some(Edges));
    assert_eq!(refused(&with_edges(63, &bad)), Some(Range));
    let empty = with_edges(0, "").replace("(cell 1)", "(cell 21)");
    assert_eq!(refused(&empty), Some(Edges));
    for count in [0, 65, 66, 1_000, usize::MAX] {
        check_job(&sample_with(|job| job.count = count), Edges);
        let job = sample_with(|job| {
            job.count = count;
            job.reach = 0;
            job.places[511] = i32::MIN;
        });
        check_job(&job, Edges);
    }
}

/// Each number at the ends of its range and just past them.
#[test]
fn ranges_of_single_numbers() {
    type Field = fn(&mut Job) -> &mut i32;
    let coordinates: [Field; 4] = [
        |job| &mut job.x,
        |job| &mut job.y,
        |job| &mut job.places[0],
        |job| &mut job.places[7],
    ];
    for field in coordinates {
        check_range(field, -1_000_000, 1_000_000);
    }
    check_range(|job| &mut job.n, 1, 9);
    check_range(|job| &mut job.m, 0, 4);
    check_range(|job| &mut job.reach, 1, 1_000_000);
    check_range(|job| &mut job.grain, 1, 100_000);
}

/// The ends given are legal; past the range are the ends of 32 bits. Between,
/// for the two exponents, lies what row 4 refuses.
fn check_range(field: fn(&mut Job) -> &mut i32, first: i32, last: i32) {
    let at = |value: i32| {
        let mut job = job_with(&[point_edge(0)], 100_000);
        *field(&mut job) = value;
        job
    };
    assert_eq!(judge(&at(first)), Ok(()));
    assert_eq!(judge(&at(last)), Ok(()));
    for value in [i32::MIN, i32::MIN + 1, i32::MAX - 1, i32::MAX] {
        check_job(&at(value), Range);
    }
    if last > 100 {
        check_job(&at(first - 1), Range);
        check_job(&at(last + 1), Range);
    } else {
        check_job(&at(-1), Range);
        check_job(&at(21), Range);
        check_job(&at(last + 1), Cell);
    }
}

#[test]
fn numbers_past_the_count_are_out_of_range() {
    for place in [8, 9, 15, 16, 300, 511] {
        for value in [1, -1, i32::MIN, i32::MAX] {
            check_job(&sample_with(|job| job.places[place] = value), Range);
        }
    }
    let last_used = sample_with(|job| {
        job.count = 64;
        job.places[511] = 1;
    });
    assert_eq!(judge(&last_used), Ok(()));
}

#[test]
fn range_before_cell() {
    for (from, to, refusal) in [
        ("(cell 1)", "(cell 5)", Cell),
        ("(cell 1)", "(cell 20)", Cell),
        ("(cell 1)", "(cell 21)", Range),
        ("(cell 1)", "(cell -1)", Range),
        ("-8 4)", "-8 10)", Cell),
        ("-8 4)", "-8 0)", Cell),
        ("-8 4)", "-8 21)", Range),
        ("-8 4)", "-8 -1)", Range),
        ("(reach 4)", "(reach 0)", Range),
        ("(reach 4)", "(reach -4)", Range),
        ("(reach 4)", "(reach 1000001)", Range),
        ("(grain 1)", "(grain 0)", Range),
        ("(grain 1)", "(grain -1)", Range),
        ("(grain 1)", "(grain 100001)", Range),
        ("(cell 1)\n(reach 4)", "(cell 5)\n(reach 0)", Range),
    ] {
        let sheet = changed(from, to);
        assert_eq!(refused(&sheet), Some(refusal), "{from} {to}");
    }
}

#[test]
fn the_exponents_of_a_job() {
    let both = sample_with(|job| (job.n, job.m) = (-3, 7));
    check_job(&both, Range);
    let both = sample_with(|job| (job.n, job.m) = (4, 21));
    check_job(&both, Range);
    for (n, m) in [(4, 5), (9, 0), (20, 11), (0, 20), (20, 0)] {
        check_job(&sample_with(|job| (job.n, job.m) = (n, m)), Cell);
        let late = sample_with(|job| {
            (job.n, job.m) = (n, m);
            job.places[..8].copy_from_slice(&long_edge().place());
        });
        check_job(&late, Cell);
    }
}

#[test]
fn the_spot_of_a_point() {
    let store = SAMPLE_STORE;
    let spots = [
        (1_000_001, 0),
        (-1_000_001, 0),
        (0, 1_000_001),
        (0, -1_000_001),
        (i32::MIN, i32::MAX),
    ];
    let no_edges = sample_with(|job| job.count = 0);
    let bad_cell = sample_with(|job| job.m = 5);
    let long = job_with(&[long_edge()], 488);
    for (x, y) in spots {
        assert_eq!(point(&sample_job(), x, y, &store), Err(Range));
        assert_eq!(point(&sample_job(), x, y, &[]), Err(Range));
        assert_eq!(point(&no_edges, x, y, &store), Err(Edges));
        assert_eq!(point(&bad_cell, x, y, &store), Err(Range));
        assert_eq!(point(&long, x, y, &store), Err(Range));
    }
    for (x, y) in [(1_000_000, -1_000_000), (-1_000_000, 1_000_000)] {
        assert!(point(&sample_job(), x, y, &store).is_ok());
    }
}

/// A call of `points`, without a fault until one is put in.
#[derive(Clone)]
struct Call {
    job: Job,
    row: Vec<i32>,
    store: Vec<i32>,
    reply: Vec<i64>,
}

impl Call {
    /// Three spots with exactly the memory they need. A finer grain makes it long.
    fn good() -> Call {
        let job = job_with(&[point_edge(7), long_edge()], 489);
        let store = finished(&job).unwrap().store;
        Call {
            job,
            row: vec![3, 4, 5, 6, -7, -8],
            store,
            reply: vec![7; 9],
        }
    }

    fn result(&mut self) -> Result<(), Refusal> {
        points(&self.job, &self.row, &self.store, &mut self.reply)
    }
}

/// A fault by the refusal it is for.
type Fault = (Refusal, fn(&mut Call));

/// The order in which a sheaf's faults are looked for, two ways to each.
const SHEAF_FAULTS: [[Fault; 2]; 8] = [
    [
        (Edges, |call| call.job.count = 0),
        (Edges, |call| call.job.count = 65),
    ],
    [
        (Range, |call| call.job.reach = 0),
        (Range, |call| call.row.push(1_000_001)),
    ],
    [
        (Cell, |call| call.job.m = 5),
        (Cell, |call| call.job.n = 20),
    ],
    [
        (Sheaf, |call| call.row.insert(0, 1)),
        (Sheaf, |call| call.row.splice(0..0, [9; 512]).for_each(drop)),
    ],
    [
        (Long, |call| call.job.grain = 488),
        (Long, |call| call.job.grain = 1),
    ],
    [
        (Store, |call| call.store.truncate(22_527)),
        (Store, |call| call.store.clear()),
    ],
    [
        (Space, |call| call.reply.truncate(8)),
        (Space, |call| call.reply.clear()),
    ],
    [
        (Stranger, |call| call.store.fill(0)),
        (Stranger, |call| {
            call.store
                .iter_mut()
                .rev()
                .take(1)
                .for_each(|last| *last += 1)
        }),
    ],
];

/// Any set of faults at once: the first of them in this order is given.
#[test]
fn the_order_of_a_sheafs_refusals() {
    let good = Call::good();
    assert_eq!(good.clone().result(), Ok(()));
    for set in 1..1_u32 << SHEAF_FAULTS.len() {
        for ways in 0..4 {
            let mut call = good.clone();
            let mut first = None;
            for (index, both) in SHEAF_FAULTS.iter().enumerate() {
                if set >> index & 1 == 1 {
                    // The same way of all, or one and the other in turn.
                    let (refusal, put_in) = both[(ways >> (index % 2)) as usize & 1];
                    put_in(&mut call);
                    first = first.or(Some(refusal));
                }
            }
            assert_eq!(call.result().err(), first, "{set:b} {ways}");
            assert!(call.reply.iter().all(|&number| number == 7));
        }
    }
}

/// The refusals of the spot's own range, in any spot and either number.
#[test]
fn the_spots_of_a_sheaf() {
    let no_edges = sample_with(|job| job.count = 0);
    let bad_cell = sample_with(|job| job.m = 5);
    let long = job_with(&[long_edge()], 488);
    for place in 0..6 {
        for number in [1_000_001, -1_000_001, i32::MIN, i32::MAX] {
            let mut row = [0; 6];
            row[place] = number;
            let ask = |job: &Job| points(job, &row, &SAMPLE_STORE, &mut [0; 9]);
            assert_eq!(ask(&sample_job()), Err(Range));
            assert_eq!(ask(&no_edges), Err(Edges));
            assert_eq!(ask(&bad_cell), Err(Range));
            assert_eq!(ask(&long), Err(Range));
        }
    }
}

#[test]
fn long_before_store_before_space() {
    let long = job_with(&[point_edge(0), long_edge()], 488);
    assert_eq!(judge(&long), Ok(()));
    assert!(write(&long, &mut [0; 200]).is_ok());
    assert_eq!(map(&long, &mut [], &mut []), Err(Long));
    assert_eq!(map(&long, &mut [0; 30_000], &mut [0; 64]), Err(Long));
    assert_eq!(point(&long, 0, 0, &[]), Err(Long));
    assert_eq!(point(&long, 0, 0, &[1; 30_000]), Err(Long));

    let job = sample_job();
    assert_eq!(map(&job, &mut [], &mut []), Err(Store));
    assert_eq!(map(&job, &mut [0; 10], &mut [0; 64]), Err(Store));
    assert_eq!(map(&job, &mut [0; 11], &mut []), Err(Space));
    assert_eq!(map(&job, &mut [0; 11], &mut [0; 63]), Err(Space));
    assert_eq!(map(&job, &mut [0; 11], &mut [0; 64]), Ok(1));
    assert_eq!(point(&job, 0, 0, &[]), Err(Store));
    assert_eq!(point(&job, 0, 0, &[9; 10]), Err(Store));
    assert_eq!(point(&job, 0, 0, &[9; 11]), Err(Stranger));
    assert!(point(&job, 0, 0, &SAMPLE_STORE).is_ok());

    let deep = job_with(&[long_edge()], 489);
    let needed = finished(&deep).unwrap().store.len();
    assert_eq!(needed, 22_517);
    assert_eq!(map(&deep, &mut vec![0; needed - 1], &mut []), Err(Store));
    assert_eq!(map(&deep, &mut vec![0; needed], &mut []), Err(Space));
}

/// At depth 10 the axis is 98,304/2,048 = 48 and the centre an odd multiple of
/// it, both whole, so the box is 0 and 48 fine units are what grain 3 allows.
/// All the pieces of lesser depth are longer.
#[test]
fn pieces_that_just_fit_are_not_long() {
    let done = finished(&job_with(&[just_short_edge()], 3)).unwrap();
    assert_eq!((done.nodes, done.store[6]), (2_047, 2_047));
    assert_eq!(done.store[..6], [49_152, 0, 49_152, 0, 0, 0]);
    assert_eq!(done.store[7..11], [0, 0, 98_304, 0]);
    let first_leaf = [48, 0, 48, 0, 0, 0, 1, 0, 0, 96, 0];
    assert_eq!(done.store[110..121], first_leaf);
    let last_leaf = [98_256, 0, 48, 0, 0, 0, 1, 98_208, 0, 98_304, 0];
    assert_eq!(done.store[22_506..], last_leaf);

    let long = job_with(&[just_short_edge()], 2);
    assert_eq!(map(&long, &mut [0; 30_000], &mut [0; 64]), Err(Long));
    assert_eq!(point(&long, 0, 0, &done.store), Err(Long));
    // Twice the length halves down the same way to 96, too much for grain 5.
    let twice = |grain| finished(&job_with(&[edge([0, 4_096, 8_192, 12_288], [0; 4])], grain));
    assert_eq!(twice(6).unwrap().nodes, 2_047);
    assert_eq!(twice(5).err(), Some(Long));
}

/// A store drawn with other pads is not the job's any more.
#[test]
fn a_store_with_other_pads_is_a_stranger() {
    let job = job_with(&[edge([0, 0, 4, 12], [0, 4, 8, 12])], 8);
    let own = [72, 96, 96, 96, 24, 0, 1, -48, 0, 192, 192];
    assert!(point(&job, 0, 0, &own).is_ok());
    let padded = [72, 96, 96, 96, 26, 2, 1, -50, -2, 194, 194];
    assert_eq!(point(&job, 0, 0, &padded), Err(Stranger));
    let padded = [0, 0, 0, 0, 2, 2, 1, -2, -2, 2, 2];
    assert_eq!(point(&sample_job(), 0, 0, &padded), Err(Stranger));
}

#[test]
fn a_short_lent_sheet() {
    let length = SAMPLE_SHEET.len();
    for lent in 0..length {
        assert_eq!(write(&sample_job(), &mut vec![0; lent]), Err(Space));
    }
    assert_eq!(write(&sample_job(), &mut vec![0; length]), Ok(length));
}
