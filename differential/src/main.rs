//! Calls the proved library and the second implementation side by side, on
//! many inputs of many kinds, and compares the answers and every byte of lent
//! memory. The first difference is printed and ends the run with status 1.

#![deny(unsafe_op_in_unsafe_fn)]

mod binding_case;
mod damage;
mod edges;
mod fault;
mod jobs;
mod kinds;
mod largest_case;
mod lent;
mod map_case;
mod numbers;
mod options;
mod point_case;
mod points_case;
mod random;
mod read_case;
mod repeats;
mod rows;
mod run;
mod sheets;
mod spoiling;
mod spots;
mod stored;
mod stores;
mod tally;
mod ties;
mod tuning;
mod write_case;

use options::{fresh_seed, Options, USAGE};
use run::Run;
use std::process::ExitCode;

/// The seed of every run's first cases, and how many they are.
const FIXED_SEED: u64 = 1;
const FIXED_CASES: u64 = 10_000;

// The limits of the binding are those of the second implementation.
const _: () = {
    assert!(clearance::STORE_MOST == clearance_reference::trees::STORE_LIMIT);
    assert!(clearance::NODE_NUMBERS == clearance_reference::trees::NUMBERS_A_NODE);
    assert!(clearance::SHEET_READ_MOST == clearance_reference::SHEET_LIMIT);
    assert!(clearance::EDGES_MOST == clearance_reference::EDGE_LIMIT);
    assert!(clearance::LINE_NUMBERS == clearance_reference::NUMBERS_A_LINE);
    assert!(clearance::CUBIC == clearance_reference::CUBIC_MARK);
    assert!(clearance::LINE == clearance_reference::LINE_MARK);
    assert!(clearance::SPOTS_MOST == clearance_reference::SPOT_LIMIT);
};

/// Runs what the options ask for; `None` after a fault.
fn run(options: Options) -> Option<()> {
    let (seed, case, time) = (options.seed, options.case, options.time);
    let mut run = Run::new(options);
    match (seed, case) {
        (Some(seed), Some(case)) => run.case(seed, case)?,
        (Some(seed), None) => run.pass(seed, u64::MAX, time)?,
        (None, _) => {
            run.stored()?;
            run.pass(FIXED_SEED, FIXED_CASES, time / 2)?;
            run.check_variety(FIXED_CASES)?;
            run.pass(fresh_seed(), u64::MAX, time)?;
        }
    }
    run.summarize();
    Some(())
}

fn main() -> ExitCode {
    let Some(options) = Options::parse(std::env::args().skip(1)) else {
        eprint!("{USAGE}");
        return ExitCode::from(2);
    };
    match run(options) {
        Some(()) => ExitCode::SUCCESS,
        None => ExitCode::FAILURE,
    }
}
