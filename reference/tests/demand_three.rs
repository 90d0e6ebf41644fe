//! Finished maps against the exact reading of demand 3, and sham maps too.

mod common;

use clearance_reference::{Edge, Job, Refusal};
use common::brute_force::{fault, outline_points, sights, Sight};
use common::jobs::{coarse_job, random_job};
use common::random::Xorshift;
use common::reckoning::remainder_counts;
use common::{edge, finished, job_with, line, sample_job};

/// How often each letter stands in a map: C, I, D.
fn tally(letters: &[u8]) -> [usize; 3] {
    [b'C', b'I', b'D'].map(|letter| letters.iter().filter(|&&l| l == letter).count())
}

/// What a run over random jobs came to.
#[derive(Default)]
struct Totals {
    maps: usize,
    /// Maps with a letter that is not D.
    not_all_d: usize,
    /// C, I and D.
    letters: [usize; 3],
    /// D where R exceeds E, so that the band has an inner edge.
    banded: usize,
    /// C with an outline point exactly R away.
    touching: usize,
}

/// How many edges of a job are lines.
fn lines(job: &Job) -> usize {
    job.edges()
        .filter(|edge| matches!(edge, Edge::Line(_)))
        .count()
}

/// The next random job of this kind.
fn next_job(rng: &mut Xorshift, spread: i32, wanted: fn(&Job) -> bool) -> Job {
    loop {
        let job = random_job(rng, spread);
        if wanted(&job) {
            return job;
        }
    }
}

fn check_random_jobs(seed: u64, jobs: usize, spread: i32, wanted: fn(&Job) -> bool) -> Totals {
    let mut rng = Xorshift::new(seed);
    let mut totals = Totals::default();
    for _ in 0..jobs {
        totals.check_job(&next_job(&mut rng, spread, wanted));
    }
    totals
}

impl Totals {
    /// Checks a job's map, if it has one, and counts it.
    fn check_job(&mut self, job: &Job) {
        match finished(job) {
            Err(refusal) => assert_eq!(refusal, Refusal::Long),
            Ok(done) => {
                let seen = sights(job, &outline_points(job));
                assert_eq!(fault(job, &seen, &done.letters), None, "{job:?}");
                check_that_opposites_fail(job, &seen, &done.letters);
                self.add(job, &done.letters);
                let clear = seen.iter().zip(&done.letters);
                let at_reach = clear.filter(|(sight, &l)| l == b'C' && sight.touches(job));
                self.touching += at_reach.count();
            }
        }
    }

    fn add(&mut self, job: &Job, letters: &[u8]) {
        let counts = tally(letters);
        self.maps += 1;
        self.not_all_d += usize::from(counts[2] < letters.len());
        self.letters = [0, 1, 2].map(|index| self.letters[index] + counts[index]);
        if 2 * job.reach > 6 * job.grain + (3 << job.m) {
            self.banded += counts[2];
        }
    }

    /// Guards against a run that shows little, and against all-D maps: at
    /// least so many maps, cells of each letter, and cells in a true band.
    fn check(&self, maps: usize, cells: usize, banded: usize) {
        assert!(self.maps > maps, "{}", self.maps);
        assert!(2 * self.not_all_d > self.maps, "{}", self.not_all_d);
        let fewest = self.letters.iter().min().unwrap();
        assert!(*fewest > cells, "{:?}", self.letters);
        assert!(self.banded > banded, "{}", self.banded);
    }
}

/// C and I are opposites, so the check must not let either stand for the other.
fn check_that_opposites_fail(job: &Job, seen: &[Sight], letters: &[u8]) {
    for (sight, letter) in seen.iter().zip(letters) {
        match letter {
            b'C' => assert!(!sight.allows(job, b'I')),
            b'I' => assert!(!sight.allows(job, b'C')),
            _ => (),
        }
    }
}

#[test]
fn random_maps_of_few_cells_meet_demand_three() {
    check_random_jobs(0x51_7cc1, 2_000, 3, |_| true).check(1_600, 5_000, 2_000);
}

#[test]
fn random_maps_of_many_cells_meet_demand_three() {
    check_random_jobs(0xb7_2722, 600, 5, |_| true).check(480, 15_000, 4_000);
}

#[test]
fn random_maps_of_lines_meet_demand_three() {
    check_random_jobs(0x1e_5000, 1_000, 4, |job| lines(job) == job.count).check(800, 5_000, 2_000);
}

#[test]
fn random_maps_that_mix_both_kinds_meet_demand_three() {
    let is_mixed = |job: &Job| (1..job.count).contains(&lines(job));
    check_random_jobs(0x3d_7a19, 1_000, 4, is_mixed).check(800, 5_000, 2_000);
}

/// Small jobs in coarse numbers, whose strips for the most part have no pad, so
/// that nothing but the exact figures keeps the letters right.
#[test]
fn random_maps_of_exact_strips_meet_demand_three() {
    let mut rng = Xorshift::new(0x40_40c0);
    let mut totals = Totals::default();
    let mut remainders = [0; 5];
    for _ in 0..1_000 {
        let job = coarse_job(&mut rng, 4);
        let counts = remainder_counts(&job);
        remainders = std::array::from_fn(|count| remainders[count] + counts[count]);
        totals.check_job(&job);
    }
    totals.check(999, 5_000, 800);
    assert!(totals.touching > 10, "{}", totals.touching);
    let [exact, ..] = remainders;
    let padded: usize = remainders[1..].iter().sum();
    assert!(exact > 3 * padded && padded > 1_000, "{remainders:?}");
}

/// Two far edges on a wide plate.
fn wide_job() -> Job {
    let mut job = job_with(
        &[
            edge([-300, -250, -200, -300], [-300, -200, -300, -250]),
            edge([300, 250, 200, 300], [300, 200, 300, 250]),
        ],
        4,
    );
    (job.x, job.y, job.n, job.m, job.reach) = (-512, -512, 10, 5, 120);
    job
}

#[test]
fn sham_maps_fail_demand_three() {
    let job = wide_job();
    let seen = sights(&job, &outline_points(&job));
    let done = finished(&job).unwrap();
    assert_eq!(fault(&job, &seen, &done.letters), None);
    assert!(tally(&done.letters).iter().all(|&count| count > 0));
    for letter in [b'C', b'I', b'D', b'M', 0] {
        assert!(fault(&job, &seen, &[letter; 1_024]).is_some());
    }

    let mut first_edge_only = job.clone();
    first_edge_only.count = 1;
    first_edge_only.places[8..].fill(0);
    let sham = finished(&first_edge_only).unwrap();
    assert!(fault(&job, &seen, &sham.letters).is_some());

    let mut upside_down = done.letters.clone();
    upside_down.reverse();
    upside_down.rotate_left(1);
    assert!(fault(&job, &seen, &upside_down).is_some());
}

/// A line between the ends of a cubic is another outline: the map of one must
/// not pass for the other's.
#[test]
fn a_line_is_not_the_cubic_between_its_ends() {
    let wide = |edge: Edge| {
        let mut job = job_with(&[edge], 4);
        (job.x, job.y, job.n, job.m, job.reach) = (-512, -512, 10, 5, 60);
        job
    };
    let chord = wide(line([-300, 0, 300, 0]));
    let arch = wide(edge([-300, -300, 300, 300], [0, 400, 400, 0]));
    for (job, other) in [(&chord, &arch), (&arch, &chord)] {
        let seen = sights(job, &outline_points(job));
        assert_eq!(fault(job, &seen, &finished(job).unwrap().letters), None);
        assert!(fault(job, &seen, &finished(other).unwrap().letters).is_some());
    }
}

/// A cell of the sample whose near side is 4 from the point may be C at reach 4,
/// as the map has it, and not at reach 5. For I, exactly at the reach is not
/// enough.
#[test]
fn a_cell_exactly_at_the_reach_is_clear() {
    let touching = 3 * 8 + 1;
    let mut job = sample_job();
    for (reach, is_clear) in [(3, true), (4, true), (5, false)] {
        job.reach = reach;
        let sight = sights(&job, &outline_points(&job))[touching];
        assert_eq!(sight.touches(&job), reach == 4);
        assert_eq!(sight.allows(&job, b'C'), is_clear);
        assert!(!sight.allows(&job, b'I'));
        let drawn = finished(&job).unwrap().letters[touching];
        assert_eq!(drawn == b'C', is_clear);
    }

    // One cell from (-1, -1) to (0, 0); its far corner is 5 from the point.
    job = job_with(&[edge([2; 4], [3; 4])], 1);
    (job.x, job.y, job.n, job.m) = (-1, -1, 0, 0);
    for (reach, is_inside) in [(5, false), (6, true)] {
        job.reach = reach;
        let sight = sights(&job, &outline_points(&job))[0];
        assert_eq!(sight.allows(&job, b'I'), is_inside);
        let drawn = finished(&job).unwrap().letters[0];
        assert_eq!(drawn, if is_inside { b'I' } else { b'D' });
    }
}

/// The band of D is E wide on both sides, so on a wide plate it holds far fewer
/// cells than the plate has.
#[test]
fn doubt_is_allowed_only_near_the_reach() {
    let job = wide_job();
    let seen = sights(&job, &outline_points(&job));
    let allowed = seen.iter().filter(|sight| sight.allows(&job, b'D')).count();
    let [_, _, d] = tally(&finished(&job).unwrap().letters);
    assert!(d <= allowed && allowed < 512, "{d} {allowed}");
}
