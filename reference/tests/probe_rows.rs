//! The battery of rows of spots, question by question.

mod common;

use clearance_reference::probe_rows::battery;
use clearance_reference::trees::{grow, own_store};
use clearance_reference::{listing, lookup, Job};
use common::jobs::random_job;
use common::random::Xorshift;
use common::{edge, job_with, line, long_edge, sample_job};

/// The answer to each question: lines of points with the number past them, or
/// a refusal with the count of numbers changed.
fn answers(job: &Job) -> Vec<String> {
    let text = battery(job);
    assert!(text.ends_with('\n'));
    let mut answers = vec![String::new()];
    for line in text.lines() {
        let answer = answers.last_mut().unwrap();
        *answer += &format!("{line}\n");
        if !line.starts_with("(point ") && !line.starts_with("(refused ") {
            answers.push(String::new());
        }
    }
    assert_eq!(answers.pop().as_deref(), Some(""));
    assert_eq!(answers.len(), 25);
    answers
}

fn refused(number: u8) -> String {
    format!("(refused {number})\n(changed 0)\n")
}

/// The answers of a job that is not refused, from the line of each spot in range.
/// The row of 256 spots shows those of the first eight.
fn wanted(lines: &[String; 8]) -> Vec<String> {
    let accepted = |lines: &[String]| lines.concat() + "(past 7)\n";
    let [_, spot, _, control, ..] = lines.clone();
    let twice = accepted(&[spot.clone(), spot.clone()]);
    let mut wanted: Vec<String> = lines.chunks(1).map(accepted).collect();
    wanted.extend([refused(3), refused(3)]);
    wanted.push(accepted(&[spot.clone(), control.clone()]));
    wanted.push(accepted(&[control, spot]));
    wanted.push(twice.clone());
    wanted.extend([accepted(lines), refused(3)]);
    wanted.extend([accepted(lines), refused(9)]);
    wanted.extend([refused(9), refused(9), refused(3), refused(7)]);
    wanted.extend([twice, refused(6), refused(6), refused(8)]);
    wanted
}

#[test]
fn the_sample() {
    let at_edge = "(point 0 0 0)\n";
    let at_spot = "(point 6400 6400 0)\n";
    let at_corner = "(point 32768 32768 0)\n";
    let far_off = "(point 512000000000000 512000000000000 0)\n";
    let lines = [
        at_edge, at_spot, at_corner, at_edge, at_edge, at_edge, at_edge, far_off,
    ];
    assert_eq!(answers(&sample_job()), wanted(&lines.map(str::to_string)));
}

/// The line of each spot in range, from the trees.
fn lines_of(job: &Job) -> [String; 8] {
    let trees = grow(job).unwrap();
    let [x0, y0, x1, y1, x2, y2, x3, y3, ..] = job.places;
    let firsts = [[0, 0], [3, 4], [job.x, job.y], [x0, y0]];
    let lasts = [[x1, y1], [x2, y2], [x3, y3], [1_000_000, -1_000_000]];
    let line_at = |[x, y]: [i32; 2]| listing::point(&lookup(&trees, x, y).unwrap().nearest);
    let [a, b, c, d] = firsts.map(line_at);
    let [e, f, g, h] = lasts.map(line_at);
    [a, b, c, d, e, f, g, h]
}

/// First edges of both kinds, whose four spots differ.
#[test]
fn spots_of_the_first_edge() {
    let bend = edge([0, 0, 4, 12], [0, 4, 8, 12]);
    let slant = line([5, 6, 70, -80]);
    for first in [bend, slant] {
        let job = job_with(&[first, long_edge()], 489);
        assert_eq!(answers(&job), wanted(&lines_of(&job)));
    }
}

#[test]
fn random_jobs() {
    let mut rng = Xorshift::new(0x9a0b_0003);
    let mut asked = 0;
    for _ in 0..150 {
        let job = random_job(&mut rng, 0);
        if own_store(&job).is_empty() {
            continue;
        }
        assert_eq!(answers(&job), wanted(&lines_of(&job)));
        asked += 1;
    }
    assert!(asked > 100, "{asked}");
}

/// Of a long job the range and the count of the numbers come first; of the
/// others, which have no store either, 2 comes before the range, and 4 between
/// range and count.
#[test]
fn refused_jobs() {
    let long = job_with(&[long_edge()], 488);
    let reach = Job {
        reach: 0,
        ..sample_job()
    };
    let cell = Job {
        m: 5,
        ..sample_job()
    };
    for (job, own, range, count) in [
        (Job::ZERO, 2, 2, 2),
        (reach, 3, 3, 3),
        (cell, 4, 3, 4),
        (long, 5, 3, 9),
    ] {
        let mut numbers = vec![own; 8];
        numbers.extend([range, range]);
        numbers.extend([own, own, own]);
        numbers.extend([own, range, own, count]);
        numbers.extend([count, count, range, own]);
        numbers.extend([own, own, own, own]);
        let wanted: Vec<String> = numbers.into_iter().map(refused).collect();
        assert_eq!(answers(&job), wanted);
    }
}
