//! Lent memory: untouched by a refusal, and kept past what is written.

mod common;

use clearance_reference::{map, points, reply_length, write, Job};
use common::jobs::random_job;
use common::random::Xorshift;
use common::{finished, job_with, long_edge, point_edge, sample_job};

/// Lends memory full of marks and gives it back with what was written.
fn map_over_marks(job: &Job, numbers: usize, bytes: usize) -> (bool, Vec<i32>, Vec<u8>) {
    let mut store: Vec<i32> = (0..numbers as i32).map(|i| 77_000_000 + i).collect();
    let mut cells: Vec<u8> = (0..bytes).map(mark).collect();
    let accepted = map(job, &mut store, &mut cells).is_ok();
    (accepted, store, cells)
}

/// A mark that is no letter of a map or a sheet.
fn mark(index: usize) -> u8 {
    128 + (index % 101) as u8
}

/// That the numbers and bytes from these places on still are the marks.
fn check_marks(store: &[i32], first_number: usize, cells: &[u8], first_byte: usize) {
    for (i, &number) in store.iter().enumerate().skip(first_number) {
        assert_eq!(number, 77_000_000 + i as i32);
    }
    for (i, &byte) in cells.iter().enumerate().skip(first_byte) {
        assert_eq!(byte, mark(i));
    }
}

#[test]
fn a_refused_map_changes_nothing() {
    let sample = sample_job();
    let no_edges = Job::ZERO;
    let bad_reach = Job {
        reach: 0,
        ..sample.clone()
    };
    let bad_cell = Job {
        m: 5,
        ..sample.clone()
    };
    // Long only at its last edge, after others that could have been written.
    let long = job_with(&[point_edge(0), point_edge(5), long_edge()], 488);
    let deep = job_with(&[point_edge(0), long_edge()], 489);
    for (job, numbers, bytes) in [
        (&no_edges, 100, 100),
        (&bad_reach, 100, 100),
        (&bad_cell, 100, 100),
        (&long, 30_000, 70_000),
        (&deep, 22_527, 70_000),
        (&sample, 10, 70_000),
        (&sample, 11, 63),
        (&deep, 22_528, 63),
    ] {
        let (accepted, store, cells) = map_over_marks(job, numbers, bytes);
        assert!(!accepted);
        check_marks(&store, 0, &cells, 0);
    }
}

#[test]
fn memory_past_a_map_is_kept() {
    let mut rng = Xorshift::new(0x8525_84c2);
    for _ in 0..300 {
        let job = random_job(&mut rng, 4);
        let Ok(done) = finished(&job) else { continue };
        let (numbers, bytes) = (done.store.len(), done.letters.len());
        for (more_numbers, more_bytes) in [(0, 0), (1, 1), (40, 3), (3, 900)] {
            let (accepted, store, cells) =
                map_over_marks(&job, numbers + more_numbers, bytes + more_bytes);
            assert!(accepted);
            assert_eq!(store[..numbers], done.store);
            assert_eq!(cells[..bytes], done.letters);
            check_marks(&store, numbers, &cells, bytes);
        }
    }
}

#[test]
fn memory_past_a_sheet_is_kept() {
    let mut rng = Xorshift::new(0x4cf5_ad43);
    for _ in 0..300 {
        let job = random_job(&mut rng, 8);
        let length = write(&job, &mut [0; 8_192]).unwrap();
        for more in [0, 1, 50] {
            let mut lent: Vec<u8> = (0..length + more).map(mark).collect();
            assert_eq!(write(&job, &mut lent), Ok(length));
            assert!(lent[..length].is_ascii());
            check_marks(&[], 0, &lent, length);
        }
        let mut lent: Vec<u8> = (0..length - 1).map(mark).collect();
        assert!(write(&job, &mut lent).is_err());
        check_marks(&[], 0, &lent, 0);
        let unfit = Job { grain: 0, ..job };
        let mut lent: Vec<u8> = (0..8_192).map(mark).collect();
        assert!(write(&unfit, &mut lent).is_err());
        check_marks(&[], 0, &lent, 0);
    }
}

/// Asks with a reply full of marks and gives it back with what was written.
fn ask_over_marks(job: &Job, row: &[i32], store: &[i32], length: usize) -> (bool, Vec<i64>) {
    let mut reply: Vec<i64> = (0..length).map(reply_mark).collect();
    let accepted = points(job, row, store, &mut reply).is_ok();
    (accepted, reply)
}

/// A mark that is no bound and no edge.
fn reply_mark(index: usize) -> i64 {
    i64::MIN + index as i64
}

/// That the numbers of a reply from this place on still are the marks.
fn check_reply_marks(reply: &[i64], first: usize) {
    for (i, &number) in reply.iter().enumerate().skip(first) {
        assert_eq!(number, reply_mark(i));
    }
}

#[test]
fn a_refused_sheaf_changes_nothing() {
    let deep = job_with(&[point_edge(0), long_edge()], 489);
    let long = Job {
        grain: 488,
        ..deep.clone()
    };
    let store = finished(&deep).unwrap().store;
    let mut changed = store.clone();
    *changed.last_mut().unwrap() += 1;
    let row = [5; 512];
    let mut last_bad = row;
    last_bad[511] = 1_000_001;
    assert!(ask_over_marks(&deep, &row, &store, 768).0);
    for (job, row, store, length) in [
        (&Job::ZERO, &row[..], &store[..], 768),
        (&deep, &last_bad, &store, 768),
        (&deep, &row[1..], &store, 768),
        (&deep, &[5; 514], &store, 800),
        (&deep, &[], &store, 768),
        (&long, &row, &store, 768),
        (&deep, &row, &store[..store.len() - 1], 768),
        (&deep, &row, &store, 767),
        (&deep, &row, &changed, 768),
        (&deep, &row, &changed, 800),
    ] {
        let (accepted, reply) = ask_over_marks(job, row, store, length);
        assert!(!accepted);
        check_reply_marks(&reply, 0);
    }
}

#[test]
fn memory_past_a_reply_is_kept() {
    let mut rng = Xorshift::new(0x3c6e_f372);
    for _ in 0..300 {
        let job = random_job(&mut rng, 0);
        let Ok(done) = finished(&job) else { continue };
        let spots = rng.choose(&[1, 2, 9, 256]);
        let row: Vec<i32> = (0..2 * spots).map(|_| rng.between(-999, 999)).collect();
        let length = reply_length(&row);
        for more in [0, 1, 3, 400] {
            let (accepted, reply) = ask_over_marks(&job, &row, &done.store, length + more);
            assert!(accepted);
            assert!(reply[..length].iter().all(|&number| number >= 0));
            check_reply_marks(&reply, length);
        }
    }
}
