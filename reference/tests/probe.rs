//! The battery of questions, line by line.

mod common;

use clearance_reference::probe::battery;
use clearance_reference::trees::{grow, store_numbers};
use clearance_reference::{listing, lookup, Job};
use common::jobs::random_job;
use common::random::Xorshift;
use common::{edge, job_with, line, long_edge, sample_job};

/// The lines for the ten spots, the three lengths, the 33 changes, the three
/// changes of a short store, the eight of the finest grain, and the nodes
/// without boxes.
fn parts(job: &Job) -> [Vec<String>; 6] {
    let text = battery(job);
    assert!(text.ends_with('\n'));
    let lines: Vec<String> = text.lines().map(str::to_string).collect();
    assert_eq!(lines.len(), 58);
    [0..10, 10..13, 13..46, 46..49, 49..57, 57..58].map(|range| lines[range].to_vec())
}

#[test]
fn the_sample() {
    let [spots, lengths, changes, short, finest, without_boxes] = parts(&sample_job());
    let at_edge = "(point 0 0 0) (reads 1)";
    let at_spot = "(point 6400 6400 0) (reads 1)";
    let at_corner = "(point 32768 32768 0) (reads 1)";
    let far_off = "(point 512000000000000 512000000000000 0) (reads 1)";
    assert_eq!(spots[..4], [at_edge, at_spot, at_corner, at_edge]);
    assert_eq!(spots[4..8], [at_edge, at_edge, at_edge, far_off]);
    assert_eq!(spots[8..], ["(refused 3)"; 2]);
    assert_eq!(lengths, [at_spot, "(refused 6)", "(refused 6)"]);
    assert_eq!(changes, ["(refused 8)"; 33]);
    assert_eq!(short, ["(refused 6)"; 3]);
    // The sample's grain is the finest.
    assert_eq!(finest, of_own_grain(at_spot));
    assert_eq!(without_boxes, ["(refused 6)"]);
}

/// The lines of the finest grain where that is the job's own, or as good.
fn of_own_grain(at_spot: &str) -> [&str; 8] {
    let [short, changed] = ["(refused 6)", "(refused 8)"];
    [
        at_spot, short, changed, changed, changed, short, short, short,
    ]
}

/// 5 comes before 6 and 8, and 6 before 8.
#[test]
fn the_finest_grain() {
    for (job, wanted) in [
        (job_with(&[long_edge()], 489), "(refused 5)"),
        (job_with(&[line([0; 4]), long_edge()], 489), "(refused 5)"),
        (job_with(&[line([0, 0, 900, 0])], 489), "(refused 6)"),
    ] {
        assert_eq!(parts(&job)[4], [wanted; 8]);
    }
    let job = job_with(&[line([0; 4])], 489);
    assert_eq!(parts(&job)[4], of_own_grain(&parts(&job)[0][1]));
}

/// The spots stand in the order of the place's numbers.
#[test]
fn spots_of_the_first_edge() {
    let bend = edge([0, 0, 4, 12], [0, 4, 8, 12]);
    let slant = line([5, 6, 70, -80]);
    for (first, wanted) in [
        (bend, [[0, 0], [0, 4], [4, 8], [12, 12]]),
        (slant, [[5, 6], [70, -80], [0, 0], [0, 0]]),
    ] {
        let job = job_with(&[first, long_edge()], 489);
        let trees = grow(&job).unwrap();
        let line_at = |[x, y]: [i32; 2]| {
            let found = lookup(&trees, x, y).unwrap();
            listing::point_and_reads(&found).trim_end().to_string()
        };
        assert_eq!(parts(&job)[0][3..7], wanted.map(line_at));
    }
}

#[test]
fn refused_jobs_are_refused_in_every_line() {
    let long = job_with(&[long_edge()], 488);
    let reach = Job {
        reach: 0,
        ..sample_job()
    };
    let cell = Job {
        m: 5,
        ..sample_job()
    };
    for (job, number) in [(Job::ZERO, 2), (reach, 3), (cell, 4), (long, 5)] {
        let [spots, rest @ ..] = parts(&job);
        let wanted = format!("(refused {number})");
        assert!(spots[..8].iter().all(|line| *line == wanted));
        // The range of a spot comes after the edges, and before the rest.
        let past_range = format!("(refused {})", number.min(3));
        assert_eq!(spots[8..], [past_range.clone(), past_range]);
        assert!(rest.concat().iter().all(|line| *line == wanted));
    }
}

#[test]
fn random_jobs() {
    let mut rng = Xorshift::new(0x9a0b_e000);
    for _ in 0..150 {
        let job = random_job(&mut rng, 0);
        let Ok(trees) = grow(&job) else { continue };
        assert_eq!(store_numbers(&trees).len() % 11, 0);
        let [spots, lengths, changes, short, _, without_boxes] = parts(&job);
        assert!(spots[..8].iter().all(|line| line.contains(") (reads ")));
        assert_eq!(spots[8..], ["(refused 3)"; 2]);
        assert_eq!(lengths[0], spots[1]);
        assert_eq!(lengths[1..], ["(refused 6)"; 2]);
        assert_eq!(changes, ["(refused 8)"; 33]);
        assert_eq!(short, ["(refused 6)"; 3]);
        assert_eq!(without_boxes, ["(refused 6)"]);
    }
}
