//! Sheets whose form is right, whatever their numbers say.

use crate::edges::numbers_mut;
use crate::jobs::sketch_job;
use crate::numbers::{edge_at, Numbers, COUNT, GRAIN, M, N, PLACE, REACH, X, Y};
use crate::random::Random;
use crate::spoiling::odd_number;
use clearance_reference::{Edge, DEFAULT_GRAIN, NUMBERS_A_LINE};
use std::fmt::Write;

/// The greatest number of seven digits.
const DIGITS_MOST: i32 = 9_999_999;

/// The sheet of a legal job.
pub fn legal_sheet(random: &mut Random) -> Vec<u8> {
    let job = sketch_job(random, 8);
    let named = job[GRAIN] != DEFAULT_GRAIN || random.once_in(2);
    let edges: Vec<Edge> = edges_of(&job);
    text(&job, named, &edges)
}

/// A sheet of right form with numbers or counts of edges that may be wrong.
pub fn odd_sheet(random: &mut Random) -> Vec<u8> {
    let mut job = sketch_job(random, 8);
    let mut edges = edges_of(&job);
    for _ in 0..random.below(3) {
        let number = odd_number(random).clamp(-DIGITS_MOST, DIGITS_MOST);
        if random.once_in(3) {
            let edge = random.below(edges.len());
            let numbers = numbers_mut(&mut edges[edge]);
            numbers[random.below(numbers.len())] = number;
        } else {
            job[random.below(COUNT)] = number;
        }
    }
    match random.below(4) {
        0 => edges.clear(),
        1 => {
            let count = random.choose(&[2, 63, 64, 65, 66, 70]);
            edges = edges.into_iter().cycle().take(count).collect();
        }
        2 => (job[N], job[M]) = (random.between(-1, 21), random.between(-1, 21)),
        _ => {}
    }
    let named = random.once_in(2);
    text(&job, named, &edges)
}

/// A sheet of right form and of just this length, from 2,000 bytes on, of cubics
/// or of lines. It has more edges than are allowed if it is long.
pub fn sheet_of_length(random: &mut Random, length: usize) -> Vec<u8> {
    let mut job = [0; clearance::JOB_NUMBERS];
    (job[REACH], job[GRAIN]) = (1, 1);
    let bare = text(&job, true, &[]).len();
    let (edge, bytes) = random.choose(&[
        (Edge::Cubic([0; PLACE]), [31, 50, 75]),
        (Edge::Line([0; NUMBERS_A_LINE]), [19, 30, 40]),
    ]);
    let lines = (length - bare) / random.choose(&bytes);
    let mut edges = vec![edge; lines];
    // Each digit more is a byte more. Each number has six to spare.
    let mut spare = length - bare - lines * bytes[0];
    for number in edges.iter_mut().flat_map(numbers_mut) {
        let more = spare.min(6);
        *number = 10_i32.pow(more as u32) * i32::from(more > 0);
        spare -= more;
    }
    text(&job, true, &edges)
}

fn edges_of(job: &Numbers) -> Vec<Edge> {
    (0..job[COUNT] as usize)
        .map(|index| edge_at(job, index))
        .collect()
}

/// The text of a sheet.
fn text(job: &Numbers, grain_named: bool, edges: &[Edge]) -> Vec<u8> {
    let [x, y, n, m, reach] = [X, Y, N, M, REACH].map(|index| job[index]);
    let mut text = format!("(job\n(plate {x} {y} {n})\n(cell {m})\n(reach {reach})\n");
    if grain_named {
        // Writing to a string cannot fail.
        let _ = writeln!(text, "(grain {})", job[GRAIN]);
    }
    for edge in edges {
        let _ = match edge {
            Edge::Cubic([x0, y0, x1, y1, x2, y2, x3, y3]) => writeln!(
                text,
                "(edge ({x0} {y0}) ({x1} {y1}) ({x2} {y2}) ({x3} {y3}))"
            ),
            Edge::Line([x0, y0, x1, y1]) => writeln!(text, "(line ({x0} {y0}) ({x1} {y1}))"),
        };
    }
    text += ")\n";
    text.into_bytes()
}
