//! The texts the program prints. The map and the refusal are those of RULES,
//! "Printing"; the store, the point and its reads are this program's own.

use crate::point::{Lookup, Nearest};
use crate::refusal::Refusal;
use crate::trees::NUMBERS_A_NODE;
use std::fmt::Write;

/// A finished map of a square plate, lowest row first.
pub fn map(letters: &[u8]) -> String {
    let side = letters.len().isqrt();
    let mut text = format!("(map {side}\n");
    for row in letters.chunks(side.max(1)) {
        text += &format!("(row {})\n", String::from_utf8_lossy(row));
    }
    text + ")\n"
}

/// The nodes of a store, one a line.
pub fn store(numbers: &[i32]) -> String {
    let nodes = numbers.chunks(NUMBERS_A_NODE);
    let mut text = format!("(store {}\n", nodes.len());
    for node in nodes {
        let words: Vec<String> = node.iter().map(i32::to_string).collect();
        // Writing to a string cannot fail.
        let _ = writeln!(text, "{}", words.join(" "));
    }
    text + ")\n"
}

/// The bounds on a point's distance.
pub fn point(nearest: &Nearest) -> String {
    points(&nearest.numbers())
}

/// The same for each three numbers of a reply, a line each.
pub fn points(reply: &[i64]) -> String {
    let lines = reply.as_chunks().0.iter();
    lines
        .map(|[lo, hi, edge]| format!("(point {lo} {hi} {edge})\n"))
        .collect()
}

/// How many nodes a lookup read.
pub fn reads(lookup: &Lookup) -> String {
    format!("(reads {})\n", lookup.reads)
}

/// The bounds and the reads, on one line.
pub fn point_and_reads(lookup: &Lookup) -> String {
    format!("{} {}", point(&lookup.nearest).trim_end(), reads(lookup))
}

/// A refusal.
pub fn refusal(refusal: Refusal) -> String {
    refused(refusal.number())
}

/// A refusal by its number.
pub fn refused(number: u8) -> String {
    format!("(refused {number})\n")
}
