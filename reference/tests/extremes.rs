//! The ends of every range, and numbers far past them: a result or a refusal,
//! and no overflow where that is checked.

mod common;

use clearance_reference::strips::{Piece, Strip};
use clearance_reference::{map, point, points, write, Edge, Job, Refusal, COORDINATE_LIMIT};
use common::finished;
use common::random::Xorshift;
use common::reckoning::check_strip;

const LIMIT: i32 = COORDINATE_LIMIT;

/// An end of the range for each bit.
fn ends<const NUMBERS: usize>(signs: u32) -> [i32; NUMBERS] {
    std::array::from_fn(|bit| if signs >> bit & 1 == 0 { -LIMIT } else { LIMIT })
}

/// Every cubic and every line with each number at an end of its range, on far
/// plates.
#[test]
fn legal_extremes() {
    let cubics = (0..256).map(|signs| (signs, Edge::Cubic(ends(signs))));
    let lines = (0..16).map(|signs| (signs, Edge::Line(ends(signs))));
    for (signs, edge) in cubics.chain(lines) {
        let mut job = Job::ZERO;
        job.add(&edge);
        job.x = if signs & 1 == 0 { LIMIT } else { -LIMIT };
        job.y = if signs & 4 == 0 { LIMIT } else { -LIMIT };
        (job.n, job.m) = (20, 17);
        for (reach, grain) in [(1, 100_000), (1_000_000, 10_000), (1_000_000, 1)] {
            (job.reach, job.grain) = (reach, grain);
            check_extreme(&job);
        }
    }
}

fn check_extreme(job: &Job) {
    match finished(job) {
        Err(refusal) => assert_eq!(refusal, Refusal::Long),
        Ok(done) => {
            assert!(done.store.iter().all(|number| number.abs() < 22_000_003));
            for (x, y) in [(LIMIT, LIMIT), (-LIMIT, LIMIT), (0, -LIMIT)] {
                let nearest = point(job, x, y, &done.store).unwrap();
                assert!(0 <= nearest.lo && nearest.lo <= nearest.hi);
            }
        }
    }
}

/// One field after another at a wild value, the rest legal.
#[test]
fn wild_jobs_get_a_result_or_a_refusal() {
    const WILD: [i32; 9] = [i32::MIN, -LIMIT - 1, -1, 0, 1, 8, 20, LIMIT, i32::MAX];
    const COUNTS: [usize; 6] = [0, 1, 64, 65, usize::MAX / 8, usize::MAX];
    let mut rng = Xorshift::new(0x7f4a_7c15);
    let mut store = vec![0; 30_000];
    let mut cells = vec![0; 65_536];
    let mut accepted = 0;
    for _ in 0..20_000 {
        let mut job = common::sample_job();
        for _ in 0..rng.below(4) {
            let value = rng.choose(&WILD);
            match rng.below(10) {
                0 => job.count = rng.choose(&COUNTS),
                1 => job.places[rng.below(512)] = value,
                2 => job.places[rng.below(8)] = value,
                3 => job.x = value,
                4 => job.n = value,
                5 => job.m = value,
                6 => job.reach = value,
                7 => job.marks[rng.below(64)] = value,
                8 => job.marks[0] = value,
                _ => job.grain = value,
            }
        }
        let written = write(&job, &mut cells);
        let mapped = map(&job, &mut store, &mut cells);
        let (x, y) = (rng.choose(&WILD), rng.choose(&WILD));
        let asked = point(&job, x, y, &store);
        assert!(written.is_ok() || mapped.is_err());
        assert!(mapped.is_ok() || asked.is_err());
        // A sheaf of one gets just the same, and so does the same spot twice.
        let mut reply = [7; 3];
        let together = points(&job, &[x, y], &store, &mut reply);
        assert_eq!(together.err(), asked.err());
        assert_eq!(reply, asked.map_or([7; 3], |nearest| nearest.numbers()));
        let doubled = points(&job, &[x, y, x, y], &store, &mut [7; 6]);
        assert_eq!(doubled, together);
        accepted += usize::from(mapped.is_ok());
    }
    assert!(accepted > 1_000, "{accepted}");
}

#[test]
fn strips_of_any_numbers() {
    let mut rng = Xorshift::new(0x1656_67b1);
    for _ in 0..2_000 {
        let numbers = [(); 8].map(|()| rng.choose(&[i32::MIN, -1, 0, 1, i32::MAX]));
        let mut piece = Piece::WHOLE;
        while let Some(halves) = piece.halves() {
            let strip = Strip::of(&Edge::Cubic(numbers), piece);
            check_strip(&Edge::Cubic(numbers), piece, &strip);
            let [x0, y0, x1, y1, ..] = numbers;
            let straight = Strip::of(&Edge::Line([x0, y0, x1, y1]), piece);
            assert!(straight.half_box.iter().all(|half| [0, 2].contains(half)));
            for grain in [i32::MIN, 0, i32::MAX] {
                assert!(grain > 0 || !strip.is_short(grain));
            }
            piece = rng.choose(&halves);
        }
    }
}
