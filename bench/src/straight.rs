//! The same outline with and without lines, to see what a line saves.

use clearance_reference::{Edge, Job};

/// How many edges are lines.
pub fn count(job: &Job) -> usize {
    let is_line = |edge: &Edge| matches!(edge, Edge::Line(_));
    job.edges().filter(is_line).count()
}

/// The job with a cubic for each line, as it would be drawn without lines: the
/// inner control points are the whole numbers nearest to the thirds. Of a line
/// along x or y it has the same points.
pub fn as_cubics(job: &Job) -> Job {
    let mut cubics = Job {
        count: 0,
        ..job.clone()
    };
    for edge in job.edges() {
        cubics.add(&match edge {
            Edge::Line(ends) => cubic_along(ends),
            cubic => cubic,
        });
    }
    cubics
}

fn cubic_along([x0, y0, x1, y1]: [i32; 4]) -> Edge {
    let [x_third, y_third] = [third(x0, x1), third(y0, y1)];
    let [x_two, y_two] = [third(x1, x0), third(y1, y0)];
    Edge::Cubic([x0, y0, x_third, y_third, x_two, y_two, x1, y1])
}

/// The whole number nearest to a third of the way.
fn third(start: i32, end: i32) -> i32 {
    (2 * start + end + 1).div_euclid(3)
}
