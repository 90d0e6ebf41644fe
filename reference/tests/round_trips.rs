//! Reading what was written and writing what was read.

mod common;

use clearance_reference::{read, write, Edge, Job, COORDINATE_LIMIT, EDGE_LIMIT};
use common::jobs::random_job;
use common::random::Xorshift;

fn written(job: &Job) -> Vec<u8> {
    let mut lent = vec![0; 8_192];
    let length = write(job, &mut lent).unwrap();
    lent.truncate(length);
    lent
}

fn check(job: &Job) {
    let sheet = written(job);
    assert_eq!(read(&sheet).as_ref(), Ok(job));
    let read_back = read(&sheet).unwrap();
    assert_eq!(written(&read_back), sheet);
}

/// A legal job of any numbers at all, up to the full count of edges.
fn wild_job(rng: &mut Xorshift) -> Job {
    let mut job = Job::ZERO;
    let limit = rng.choose(&[1, 9, 10, 999, COORDINATE_LIMIT]);
    let lines_in_four = rng.below(5);
    for _ in 0..1 + rng.below(EDGE_LIMIT) {
        let edge = if rng.below(4) < lines_in_four {
            Edge::Line([(); 4].map(|()| rng.between(-limit, limit)))
        } else {
            Edge::Cubic([(); 8].map(|()| rng.between(-limit, limit)))
        };
        job.add(&edge);
    }
    job.x = rng.between(-limit, limit);
    job.y = rng.between(-limit, limit);
    job.n = rng.between(0, 20);
    job.m = rng.between((job.n - 8).max(0), job.n);
    job.reach = rng.between(1, limit);
    job.grain = rng.choose(&[1, 9, 10, 11, 100, 100_000]);
    job
}

#[test]
fn legal_jobs_come_back() {
    let mut rng = Xorshift::new(0x6c62_272e);
    for _ in 0..2_000 {
        check(&random_job(&mut rng, 8));
        check(&wild_job(&mut rng));
    }
}

#[test]
fn the_longest_sheet_comes_back() {
    let job = Job {
        count: EDGE_LIMIT,
        marks: [0; EDGE_LIMIT],
        places: [-COORDINATE_LIMIT; 512],
        x: -COORDINATE_LIMIT,
        y: -COORDINATE_LIMIT,
        n: 20,
        m: 12,
        reach: 1_000_000,
        grain: 100_000,
    };
    check(&job);
    assert_eq!(written(&job).len(), 5_645);
}

#[test]
fn a_grain_of_ten_is_left_out() {
    let mut rng = Xorshift::new(0x0cce_2017);
    let mut job = wild_job(&mut rng);
    for grain in 1..=20 {
        job.grain = grain;
        let sheet = String::from_utf8(written(&job)).unwrap();
        assert_eq!(sheet.contains("(grain "), grain != 10);
        check(&job);
    }
    job.grain = 10;
    let plain = String::from_utf8(written(&job)).unwrap();
    let reach = format!("(reach {})\n", job.reach);
    let named = plain.replacen(&reach, &(reach.clone() + "(grain 10)\n"), 1);
    assert_eq!(read(named.as_bytes()), Ok(job));
}
