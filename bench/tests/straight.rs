//! The same outline with and without lines.

#[path = "../../reference/tests/common/mod.rs"]
mod common;

use clearance_bench::straight::{as_cubics, count};
use clearance_reference::{judge, read, Edge, Job};
use common::{finished, jobs::random_job, random::Xorshift};
use std::fs;

fn example(name: &str) -> Job {
    let folder = concat!(env!("CARGO_MANIFEST_DIR"), "/../examples");
    read(&fs::read(format!("{folder}/{name}.sheet")).unwrap()).unwrap()
}

/// A C and an I are opposites, so two maps of one outline never have both on a
/// cell.
fn agree(one: &[u8], other: &[u8]) -> bool {
    let mut cells = one.iter().zip(other);
    cells.all(|(a, b)| a == b || *a == b'D' || *b == b'D')
}

#[test]
fn straight_sides_as_cubics() {
    for (name, lines) in [("bracket", 6), ("baffle", 20)] {
        let job = example(name);
        let cubics = as_cubics(&job);
        assert_eq!((count(&job), count(&cubics)), (lines, 0));
        assert_eq!(cubics.count, job.count);
        let [with, without] = [&job, &cubics].map(|job| finished(job).unwrap());
        assert!(agree(&with.letters, &without.letters));
    }
    let first = as_cubics(&example("bracket")).edges().next();
    let wanted = [400, 0, 2_133, 0, 3_867, 0, 5_600, 0];
    assert_eq!(first, Some(Edge::Cubic(wanted)));
}

#[test]
fn cubics_stay_as_they_are() {
    let mut rng = Xorshift::new(17);
    for _ in 0..200 {
        let job = random_job(&mut rng, 4);
        let cubics = as_cubics(&job);
        assert_eq!(judge(&cubics), Ok(()));
        assert_eq!(as_cubics(&cubics), cubics);
        for (edge, cubic) in job.edges().zip(cubics.edges()) {
            let [ends, controls] = [edge.place(), cubic.place()];
            match edge {
                Edge::Cubic(_) => assert_eq!(edge, cubic),
                Edge::Line(_) => {
                    assert_eq!([&ends[..2], &ends[2..4]], [&controls[..2], &controls[6..]])
                }
            }
        }
    }
}
