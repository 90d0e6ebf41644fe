//! A job as the row of numbers that the library takes, legal or not.

use clearance_reference::{Edge, Job};
use std::fmt::Write;

pub const X: usize = 0;
pub const Y: usize = 1;
pub const N: usize = 2;
pub const M: usize = 3;
pub const REACH: usize = 4;
pub const GRAIN: usize = 5;
pub const COUNT: usize = 6;
/// The first number of the first place.
pub const PLACES: usize = clearance::PLACES;
/// Numbers of a place.
pub const PLACE: usize = clearance::PLACE_NUMBERS;
/// The first mark.
pub const MARKS: usize = clearance::MARKS;

/// The numbers of a job, in the library's order.
pub type Numbers = [i32; clearance::JOB_NUMBERS];

/// The same job for the second implementation. It has no negative count; one is
/// taken as 0, which is refused alike.
pub fn reference_job(numbers: &Numbers) -> Job {
    let mut job = Job {
        x: numbers[X],
        y: numbers[Y],
        n: numbers[N],
        m: numbers[M],
        reach: numbers[REACH],
        grain: numbers[GRAIN],
        count: usize::try_from(numbers[COUNT]).unwrap_or(0),
        ..Job::ZERO
    };
    job.places.copy_from_slice(&numbers[PLACES..MARKS]);
    job.marks.copy_from_slice(&numbers[MARKS..]);
    job
}

/// The numbers of a job of the second implementation.
pub fn numbers_of(job: &Job) -> Numbers {
    let mut numbers = [0; clearance::JOB_NUMBERS];
    let count = i32::try_from(job.count).unwrap_or(i32::MAX);
    numbers[..PLACES].copy_from_slice(&[job.x, job.y, job.n, job.m, job.reach, job.grain, count]);
    numbers[PLACES..MARKS].copy_from_slice(&job.places);
    numbers[MARKS..].copy_from_slice(&job.marks);
    numbers
}

/// The same job for the safe calls.
pub fn binding_job(numbers: &Numbers) -> clearance::Job {
    let mut job = clearance::Job {
        x: numbers[X],
        y: numbers[Y],
        n: numbers[N],
        m: numbers[M],
        reach: numbers[REACH],
        grain: numbers[GRAIN],
        count: numbers[COUNT],
        ..clearance::Job::ZERO
    };
    job.places.copy_from_slice(&numbers[PLACES..MARKS]);
    job.marks.copy_from_slice(&numbers[MARKS..]);
    job
}

/// The greatest reach at which a legal job's map is drawn by rows: 24 of them are
/// no longer than the plate's side. Where it is 0, there is none.
pub fn rows_reach(numbers: &Numbers) -> i32 {
    (1 << numbers[N]) / 24
}

/// Whether a legal job's map is drawn by rows.
pub fn is_by_rows(numbers: &Numbers) -> bool {
    numbers[REACH] <= rows_reach(numbers)
}

/// The edge in a place of a legal job.
pub fn edge_at(numbers: &Numbers, index: usize) -> Edge {
    let (places, _) = numbers[PLACES..MARKS].as_chunks();
    Edge::of(numbers[MARKS + index], &places[index])
}

/// Lays an edge into a place.
pub fn lay(numbers: &mut Numbers, index: usize, edge: &Edge) {
    let start = PLACES + PLACE * index;
    numbers[start..start + PLACE].copy_from_slice(&edge.place());
    numbers[MARKS + index] = edge.mark();
}

/// A job in few words: its first seven numbers and the places and marks that are
/// an edge's or not all zeros.
pub fn describe(numbers: &Numbers) -> String {
    let [x, y, n, m, reach, grain, count] = [0, 1, 2, 3, 4, 5, 6].map(|index| numbers[index]);
    let mut text = format!("job x {x} y {y} n {n} m {m} reach {reach} grain {grain} count {count}");
    let marks = numbers[MARKS..].iter();
    for (index, (place, mark)) in numbers[PLACES..MARKS].chunks(PLACE).zip(marks).enumerate() {
        let used = index < usize::try_from(count).unwrap_or(0);
        if used || *mark != 0 || place.iter().any(|&number| number != 0) {
            // Writing to a string cannot fail.
            let _ = write!(text, "\n    place {index}, mark {mark}: {place:?}");
        }
    }
    text
}
