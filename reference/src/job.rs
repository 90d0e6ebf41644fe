//! The job and the ranges of its numbers: RULES, "Jobs", and rows
//! 2 to 4 of "Refusals".

use crate::edge::{Edge, CUBIC_MARK, LINE_MARK, NUMBERS_AN_EDGE, NUMBERS_A_LINE};
use crate::refusal::Refusal;

/// Most edges a job may have, and the places it keeps for them.
pub const EDGE_LIMIT: usize = 64;
/// Greatest magnitude of a coordinate.
pub const COORDINATE_LIMIT: i32 = 1_000_000;
/// Greatest reach.
pub const REACH_LIMIT: i32 = 1_000_000;
/// Greatest grain.
pub const GRAIN_LIMIT: i32 = 100_000;

/// Greatest exponent of the plate's side and of the smallest cell's side.
const EXPONENT_LIMIT: i32 = 20;
/// The plate's exponent exceeds the cell's by this much at most.
const EXPONENT_SPREAD: i32 = 8;

/// A job, legal or not: every field takes any value of its type.
#[derive(Clone, Debug, PartialEq, Eq)]
pub struct Job {
    /// How many of the places are edges.
    pub count: usize,
    /// The places, eight numbers each. A cubic has x0 y0 x1 y1 x2 y2 x3 y3, a
    /// line x and y of its first end, of its second, and four zeros.
    pub places: [i32; EDGE_LIMIT * NUMBERS_AN_EDGE],
    /// What each place holds: 0 a cubic, 1 a line, 0 past the count.
    pub marks: [i32; EDGE_LIMIT],
    /// The plate's lower left corner, across.
    pub x: i32,
    /// The plate's lower left corner, upward.
    pub y: i32,
    /// The plate's side is two to this power.
    pub n: i32,
    /// The smallest cell's side is two to this power.
    pub m: i32,
    /// The reach R.
    pub reach: i32,
    /// The grain T.
    pub grain: i32,
}

impl Job {
    /// The job of zeros that stands for a refused sheet.
    pub const ZERO: Job = Job {
        count: 0,
        places: [0; EDGE_LIMIT * NUMBERS_AN_EDGE],
        marks: [CUBIC_MARK; EDGE_LIMIT],
        x: 0,
        y: 0,
        n: 0,
        m: 0,
        reach: 0,
        grain: 0,
    };

    /// The edges of a legal job.
    pub fn edges(&self) -> impl Iterator<Item = Edge> + '_ {
        self.used_places()
            .map(|(mark, place)| Edge::of(mark, place))
    }

    /// Adds an edge behind the others. One past the places is only counted, so
    /// that the job is refused.
    pub fn add(&mut self, edge: &Edge) {
        if self.count < EDGE_LIMIT {
            let start = self.count * NUMBERS_AN_EDGE;
            self.marks[self.count] = edge.mark();
            self.places[start..start + NUMBERS_AN_EDGE].copy_from_slice(&edge.place());
        }
        self.count = self.count.saturating_add(1);
    }

    /// How many places are edges; a count past them all means them all.
    fn used(&self) -> usize {
        self.count.min(EDGE_LIMIT)
    }

    /// The marks and numbers of the places up to the count.
    fn used_places(&self) -> impl Iterator<Item = (i32, &[i32; NUMBERS_AN_EDGE])> {
        let places = self.places.as_chunks().0;
        self.marks.iter().copied().zip(places).take(self.used())
    }

    fn spare_places_are_zero(&self) -> bool {
        let numbers = &self.places[self.used() * NUMBERS_AN_EDGE..];
        let marks = &self.marks[self.used()..];
        numbers.iter().chain(marks).all(|&number| number == 0)
    }

    fn count_is_right(&self) -> bool {
        (1..=EDGE_LIMIT).contains(&self.count)
    }

    fn numbers_are_right(&self) -> bool {
        self.used_places().all(|(mark, place)| is_edge(mark, place))
            && self.spare_places_are_zero()
            && is_coordinate(self.x)
            && is_coordinate(self.y)
            && (0..=EXPONENT_LIMIT).contains(&self.n)
            && (0..=EXPONENT_LIMIT).contains(&self.m)
            && (1..=REACH_LIMIT).contains(&self.reach)
            && (1..=GRAIN_LIMIT).contains(&self.grain)
    }

    /// Asked only after the ranges, so the difference is small.
    fn cell_is_right(&self) -> bool {
        (0..=EXPONENT_SPREAD).contains(&(self.n - self.m))
    }
}

/// Whether a place up to the count is in range.
fn is_edge(mark: i32, place: &[i32; NUMBERS_AN_EDGE]) -> bool {
    let suits_mark = match mark {
        CUBIC_MARK => true,
        LINE_MARK => place[NUMBERS_A_LINE..].iter().all(|&number| number == 0),
        _ => false,
    };
    suits_mark && place.iter().copied().all(is_coordinate)
}

fn is_coordinate(number: i32) -> bool {
    (-COORDINATE_LIMIT..=COORDINATE_LIMIT).contains(&number)
}

/// Refuses a job that is not legal, with the lowest of 2, 3 and 4.
pub fn judge(job: &Job) -> Result<(), Refusal> {
    judge_with_spots(job, &[])
}

/// As [`judge`], with all numbers of the asked spots among those whose range
/// counts.
pub fn judge_with_spots(job: &Job, spots: &[i32]) -> Result<(), Refusal> {
    if !job.count_is_right() {
        return Err(Refusal::Edges);
    }
    if !(job.numbers_are_right() && spots.iter().copied().all(is_coordinate)) {
        return Err(Refusal::Range);
    }
    if !job.cell_is_right() {
        return Err(Refusal::Cell);
    }
    Ok(())
}
