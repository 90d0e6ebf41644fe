//! The sampling and the count of its wrong cells.

#[path = "../../reference/tests/common/mod.rs"]
mod common;

use clearance_bench::exact::{wrong_cells, Wrong};
use clearance_bench::sampling::{distance, map, polyline, straying, STEPS};
use clearance_reference::{read, Job};
use common::{finished, job_with, jobs::random_job, line, random::Xorshift, sample_job};
use std::fs;

fn example(name: &str) -> Job {
    let folder = concat!(env!("CARGO_MANIFEST_DIR"), "/../examples");
    read(&fs::read(format!("{folder}/{name}.sheet")).unwrap()).unwrap()
}

#[test]
fn distances_to_a_polyline() {
    let mut job = sample_job();
    assert_eq!(distance(&polyline(&job, 4), [3.0, 4.0]), 5.0);
    job.places[..8].copy_from_slice(&[0, 0, 1, 0, 2, 0, 3, 0]);
    assert_eq!(distance(&polyline(&job, 3), [1.5, 2.0]), 2.0);
    assert_eq!(distance(&polyline(&job, 3), [6.0, 4.0]), 5.0);
    assert!(straying(&job, 3) < 1e-9);
}

#[test]
fn distances_to_a_line() {
    let job = job_with(&[line([0, 0, 3, 0])], 1);
    for steps in [1, 3, 32] {
        let polyline = polyline(&job, steps);
        assert_eq!(polyline.len(), steps);
        assert!((distance(&polyline, [1.5, 2.0]) - 2.0).abs() < 1e-9);
        assert!((distance(&polyline, [6.0, 4.0]) - 5.0).abs() < 1e-9);
        assert!(straying(&job, steps) < 1e-9);
    }
}

#[test]
fn a_wrong_letter_beside_a_line_is_found() {
    let mut job = job_with(&[line([-6, -6, 6, 6])], 1);
    let letters = finished(&job).unwrap().letters;
    assert_eq!(wrong_cells(&job, &letters), Wrong::default());
    // The same letters are wrong beside the other diagonal.
    job.places[..4].copy_from_slice(&[-6, 6, 6, -6]);
    let wrong = wrong_cells(&job, &letters);
    assert!(wrong.clear > 0 && wrong.inside > 0, "{wrong:?}");
}

#[test]
fn the_sample_is_drawn_without_mistakes() {
    let job = sample_job();
    let letters = map(&job, STEPS);
    assert_eq!(letters.len(), 64);
    assert_eq!(wrong_cells(&job, &letters), Wrong::default());
    assert!(letters.contains(&b'C') && letters.contains(&b'I'));
}

#[test]
fn a_clear_cell_at_the_reach_exactly_is_not_wrong() {
    let mut job = sample_job();
    let letters = finished(&job).unwrap().letters;
    assert_eq!(letters[3 * 8 + 1], b'C');
    assert_eq!(wrong_cells(&job, &letters), Wrong::default());
    // A hundredth more reaches eight cells that are 4 off and eight that are
    // (4, 2) off.
    job.reach += 1;
    assert_eq!(wrong_cells(&job, &letters).clear, 16);
}

#[test]
fn a_hairpin_tip_is_missed() {
    let job = example("hairpin");
    assert!(straying(&job, STEPS) > f64::from(job.reach) / 2.0);
    assert!(wrong_cells(&job, &map(&job, STEPS)).clear > 0);
    // With so many steps the polyline is as good as the outline.
    assert_eq!(wrong_cells(&job, &map(&job, 2_048)).clear, 0);
}

#[test]
fn proper_maps_have_no_wrong_cells() {
    let mut rng = Xorshift::new(11);
    for _ in 0..200 {
        let job = random_job(&mut rng, 4);
        if let Ok(done) = finished(&job) {
            assert_eq!(wrong_cells(&job, &done.letters), Wrong::default());
        }
    }
}

#[test]
fn sham_maps_have_wrong_cells() {
    let job = example("washer");
    let done = finished(&job).unwrap();
    let count = |letter| done.letters.iter().filter(|&&l| l == letter).count();
    let cells = done.letters.len();
    // Inside cells are no clear ones, clear cells no inside ones, and the
    // doubtful are one of both at most.
    let all_clear = wrong_cells(&job, &vec![b'C'; cells]);
    assert!((count(b'I')..=cells - count(b'C')).contains(&all_clear.clear));
    let all_inside = wrong_cells(&job, &vec![b'I'; cells]);
    assert!((count(b'C')..=cells - count(b'I')).contains(&all_inside.inside));
}
