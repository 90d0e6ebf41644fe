//! The drawing and the points with the same tricks against the reference, every
//! byte.

#[path = "../../reference/tests/common/mod.rs"]
mod common;

use clearance_bench::same_tricks;
use clearance_reference::{points, read, trees, Job, Refusal};
use common::{finished, jobs::random_job, random::Xorshift};
use std::fs;

/// Draws from the reference's store, into bytes of which the last is not asked
/// for, and gives whether the job has a map at all.
fn is_drawn_alike(job: &Job) -> bool {
    let Ok(done) = finished(job) else {
        return false;
    };
    let mut cells = vec![b'?'; done.letters.len() + 1];
    same_tricks::draw(job, &done.store, &mut cells);
    assert!(cells == [done.letters, vec![b'?']].concat());
    true
}

#[test]
fn examples_are_drawn_alike() {
    let folder = concat!(env!("CARGO_MANIFEST_DIR"), "/../examples");
    let mut drawn = 0;
    for entry in fs::read_dir(folder).unwrap() {
        let path = entry.unwrap().path();
        if path.extension().is_some_and(|ending| ending == "sheet") {
            let job = read(&fs::read(path).unwrap()).unwrap();
            drawn += usize::from(is_drawn_alike(&job));
        }
    }
    assert_eq!(drawn, 10);
}

#[test]
fn random_jobs_are_drawn_alike() {
    let mut rng = Xorshift::new(3);
    let drawn = (0..400).filter(|_| is_drawn_alike(&random_job(&mut rng, 6)));
    assert!(drawn.count() > 100);
}

/// Asks both for the spots, with a reply of so many numbers, and gives the refusal.
fn are_answered_alike(job: &Job, spots: &[i32], store: &[i32], lent: usize) -> Result<(), Refusal> {
    let mut reply = vec![7; lent];
    let mut wanted = reply.clone();
    let result = same_tricks::points(job, spots, store, &mut reply);
    assert_eq!(result, points(job, spots, store, &mut wanted));
    assert!(reply == wanted);
    result
}

/// A row of spots, now and then too long, odd or out of range.
fn random_row(rng: &mut Xorshift) -> Vec<i32> {
    let numbers = rng.choose(&[2, 4, 6, 6, 20, 512, 0, 3, 513, 514]);
    let near = rng.choose(&[20, 2_000, 1_000_000]);
    let mut row: Vec<i32> = (0..numbers).map(|_| rng.between(-near, near)).collect();
    if let Some(number) = row.last_mut().filter(|_| rng.below(8) == 0) {
        *number = 1_000_001;
    }
    row
}

/// Makes a job illegal, or changes its trees.
fn spoil(rng: &mut Xorshift, job: &mut Job) {
    match rng.below(4) {
        0 => job.count = 65 * rng.below(2),
        1 => job.reach = 0,
        2 => job.m = job.n + 1,
        _ => job.grain = (job.grain / 3).max(1),
    }
}

#[test]
fn random_points_are_answered_alike() {
    let mut rng = Xorshift::new(9);
    let mut given = [0; 10];
    for _ in 0..2_000 {
        let mut job = random_job(&mut rng, 6);
        let grown = trees::grow(&job).unwrap_or_default();
        let mut store = trees::store_numbers(&grown);
        if rng.below(4) == 0 {
            spoil(&mut rng, &mut job);
        }
        let place = rng.below(store.len().max(1));
        match (rng.below(6), store.get_mut(place)) {
            (0, Some(number)) => *number = number.wrapping_add(rng.choose(&[1, -1])),
            (1, Some(_)) => store.truncate(place),
            _ => store.push(7),
        }
        let row = random_row(&mut rng);
        let lent = (3 * row.len() / 2 + 1).saturating_sub(rng.choose(&[0, 0, 1, 2]));
        let result = are_answered_alike(&job, &row, &store, lent);
        given[result
            .err()
            .map_or(0, |refusal| usize::from(refusal.number()))] += 1;
    }
    assert!(
        given[0] > 100 && given[2..].iter().all(|&count| count > 0),
        "{given:?}"
    );
}
