//! The way of 1998: each edge becomes a polyline through equal steps of the
//! parameter, and distances are measured to that, in floats. There are no
//! trees and nothing is proved: between two steps the outline may be elsewhere.

use clearance_reference::{Edge, Job};

/// Steps an edge, unless told otherwise.
pub const STEPS: usize = 32;

/// A piece of the polyline, ready for measuring.
pub struct Segment {
    start: [f64; 2],
    along: [f64; 2],
    /// One over the squared length; 0 for a segment that is a point.
    per_square: f64,
}

impl Segment {
    fn between(start: [f64; 2], end: [f64; 2]) -> Segment {
        let along = [end[0] - start[0], end[1] - start[1]];
        let square = along[0] * along[0] + along[1] * along[1];
        let per_square = if square > 0.0 { 1.0 / square } else { 0.0 };
        Segment {
            start,
            along,
            per_square,
        }
    }

    fn squared_distance(&self, spot: [f64; 2]) -> f64 {
        let [wx, wy] = [spot[0] - self.start[0], spot[1] - self.start[1]];
        let dot = wx * self.along[0] + wy * self.along[1];
        let share = (dot * self.per_square).clamp(0.0, 1.0);
        let [dx, dy] = [wx - share * self.along[0], wy - share * self.along[1]];
        dx * dx + dy * dy
    }
}

/// An edge's point at a parameter.
pub fn edge_point(edge: &Edge, t: f64) -> [f64; 2] {
    let l = 1.0 - t;
    match edge {
        Edge::Cubic(controls) => {
            let weights = [l * l * l, 3.0 * t * l * l, 3.0 * t * t * l, t * t * t];
            weighted(&weights, controls)
        }
        Edge::Line(ends) => weighted(&[l, t], ends),
    }
}

/// Points, x and y in turn, with a weight each.
fn weighted(weights: &[f64], points: &[i32]) -> [f64; 2] {
    [0, 1].map(|c| {
        let numbers = points[c..].iter().step_by(2);
        let terms = weights.iter().zip(numbers);
        terms
            .map(|(weight, &number)| weight * f64::from(number))
            .sum()
    })
}

/// The outline as a polyline with so many steps an edge.
pub fn polyline(job: &Job, steps: usize) -> Vec<Segment> {
    let mut segments = Vec::with_capacity(job.count * steps);
    for edge in job.edges() {
        let mut start = edge_point(&edge, 0.0);
        for step in 1..=steps {
            let end = edge_point(&edge, step as f64 / steps as f64);
            segments.push(Segment::between(start, end));
            start = end;
        }
    }
    segments
}

/// The distance of a spot from the polyline.
pub fn distance(polyline: &[Segment], spot: [f64; 2]) -> f64 {
    polyline
        .iter()
        .map(|segment| segment.squared_distance(spot))
        .fold(f64::INFINITY, f64::min)
        .sqrt()
}

/// How far the outline goes from its polyline, at 64 points a step: each is
/// measured to the segment of its own step.
pub fn straying(job: &Job, steps: usize) -> f64 {
    let polyline = polyline(job, steps);
    let mut most: f64 = 0.0;
    for (edge, segments) in job.edges().zip(polyline.chunks_exact(steps)) {
        for (step, segment) in segments.iter().enumerate() {
            for part in 1..64 {
                let t = (step as f64 + f64::from(part) / 64.0) / steps as f64;
                most = most.max(segment.squared_distance(edge_point(&edge, t)));
            }
        }
    }
    most.sqrt()
}

/// The letters of a legal job's cells in the map's order: measured from the
/// cell's centre, with half the diagonal for the rest of the cell.
pub fn map(job: &Job, steps: usize) -> Vec<u8> {
    let polyline = polyline(job, steps);
    let side = 1_usize << (job.n - job.m);
    let cell = f64::from(1 << job.m);
    let half_diagonal = cell * std::f64::consts::FRAC_1_SQRT_2;
    let reach = f64::from(job.reach);
    let middle = |corner: i32, index: usize| f64::from(corner) + cell * (index as f64 + 0.5);
    (0..side * side)
        .map(|index| {
            let spot = [middle(job.x, index % side), middle(job.y, index / side)];
            let distance = distance(&polyline, spot);
            if distance + half_diagonal < reach {
                b'I'
            } else if distance - half_diagonal > reach {
                b'C'
            } else {
                b'D'
            }
        })
        .collect()
}
