//! Whole programs: a sheet on standard input, the map's text on standard
//! output.

use crate::makers::Maker;
use clearance_bench::sampling;
use clearance_reference::{listing, map, read, SHEET_LIMIT};
use std::io::{self, Read, Write};
use std::path::Path;
use std::process::{Command, Stdio};

/// Runs as the whole program of one of the makers in this crate.
pub fn run_as(maker: Maker, steps: usize) -> io::Result<()> {
    let mut sheet = Vec::new();
    io::stdin()
        .take(SHEET_LIMIT as u64 + 1)
        .read_to_end(&mut sheet)?;
    let text = read(&sheet).and_then(|job| {
        if maker == Maker::Sampling {
            return Ok(listing::map(&sampling::map(&job, steps)));
        }
        let mut store = [0; 16_379];
        let mut cells = [0; 65_536];
        map(&job, &mut store, &mut cells)?;
        Ok(listing::map(&cells[..1 << (2 * (job.n - job.m))]))
    });
    io::stdout().write_all(text.unwrap_or_else(listing::refusal).as_bytes())
}

/// Starts a program, gives it the sheet and waits for all of its output.
pub fn spawn(program: &Path, arguments: &[String], sheet: &[u8]) -> io::Result<Vec<u8>> {
    let mut child = Command::new(program)
        .args(arguments)
        .stdin(Stdio::piped())
        .stdout(Stdio::piped())
        .spawn()?;
    // A sheet fits the pipe, and dropping the end closes it.
    if let Some(mut input) = child.stdin.take() {
        input.write_all(sheet)?;
    }
    Ok(child.wait_with_output()?.stdout)
}
