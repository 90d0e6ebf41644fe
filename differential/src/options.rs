//! The arguments of the program.

use std::time::{Duration, SystemTime, UNIX_EPOCH};

pub const USAGE: &str = "\
usage: differential [--seconds S] [--seed N [--case K]] [--trace]

Asks what is stored, then runs the cases of a fixed seed and those of a fresh one.
  --seconds S  stop after about so many seconds, 30 if not given
  --seed N     run the cases of this seed only, and nothing stored
  --case K     run this case only
  --trace      print the number of each case before it runs
";

/// What is to be run.
pub struct Options {
    pub time: Duration,
    pub seed: Option<u64>,
    pub case: Option<u64>,
    pub trace: bool,
}

impl Options {
    /// The options, or `None` if they make no sense.
    pub fn parse(mut arguments: impl Iterator<Item = String>) -> Option<Options> {
        let mut options = Options {
            time: Duration::from_secs(30),
            seed: None,
            case: None,
            trace: false,
        };
        while let Some(name) = arguments.next() {
            match name.as_str() {
                "--seconds" => {
                    let seconds = arguments.next()?.parse().ok()?;
                    options.time = Duration::try_from_secs_f64(seconds).ok()?;
                }
                "--seed" => options.seed = Some(arguments.next()?.parse().ok()?),
                "--case" => options.case = Some(arguments.next()?.parse().ok()?),
                "--trace" => options.trace = true,
                _ => return None,
            }
        }
        (options.case.is_none() || options.seed.is_some()).then_some(options)
    }
}

/// A seed from the time.
pub fn fresh_seed() -> u64 {
    let since = SystemTime::now().duration_since(UNIX_EPOCH);
    since.map_or(1, |time| time.as_micros() as u64)
}
