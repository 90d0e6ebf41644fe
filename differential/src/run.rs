//! A run: the cases of a seed, one after the other, while there is time.

use crate::kinds::{choose, KINDS};
use crate::options::Options;
use crate::random::Random;
use crate::stored;
use crate::tally::Tally;
use std::time::{Duration, Instant};

/// A run and what it has counted. Its steps give `None` after a fault, which
/// they print.
pub struct Run {
    options: Options,
    start: Instant,
    tallies: [Tally; KINDS.len()],
}

impl Run {
    pub fn new(options: Options) -> Run {
        Run {
            options,
            start: Instant::now(),
            tallies: [Tally::default(); KINDS.len()],
        }
    }

    fn cases(&self) -> u64 {
        self.tallies.iter().map(|tally| tally.cases).sum()
    }

    /// Runs one case of a seed.
    pub fn case(&mut self, seed: u64, case: u64) -> Option<()> {
        if self.options.trace {
            println!("seed {seed} case {case}");
        }
        let mut random = Random::new(seed, case);
        let index = choose(&mut random);
        let tally = &mut self.tallies[index];
        tally.cases += 1;
        if let Err(fault) = (KINDS[index].run)(&mut random, tally) {
            println!(
                "DIFFERENCE: --seed {seed} --case {case} ({})",
                KINDS[index].name
            );
            println!("{fault}");
            return None;
        }
        Some(())
    }

    /// Asks what is stored.
    pub fn stored(&self) -> Option<()> {
        let Err(fault) = stored::compare() else {
            return Some(());
        };
        println!("DIFFERENCE: stored\n{fault}");
        None
    }

    /// Runs the cases of a seed from 0 on, so many or until the given time.
    pub fn pass(&mut self, seed: u64, most: u64, end: Duration) -> Option<()> {
        println!("seed {seed}");
        for case in 0..most {
            if self.start.elapsed() >= end {
                break;
            }
            self.case(seed, case)?;
        }
        Some(())
    }

    /// Checks after so many cases that each kind gave all it is to give, and that
    /// a third of the maps or more were drawn each way. It does not if the time was
    /// over before.
    pub fn check_variety(&self, cases: u64) -> Option<()> {
        if self.cases() < cases {
            return Some(());
        }
        for (kind, tally) in KINDS.iter().zip(&self.tallies) {
            for &number in kind.must_give {
                if tally.numbers[usize::from(number)] == 0 {
                    println!("NO TEST: {} never gave {number}", kind.name);
                    return None;
                }
            }
            if !tally.has_drawn(kind.must_tie) {
                println!("NO TEST: {} drew too few ties", kind.name);
                return None;
            }
        }
        let [others, by_rows] = self.drawn();
        if 3 * others.min(by_rows) < others + by_rows {
            println!("NO TEST: of the maps drawn {by_rows} are by rows and {others} not");
            return None;
        }
        Some(())
    }

    /// Maps drawn: not by rows, and by rows.
    fn drawn(&self) -> [u64; 2] {
        [0, 1].map(|way| self.tallies.iter().map(|tally| tally.drawn[way]).sum())
    }

    /// Prints a line a kind, and one for all.
    pub fn summarize(&self) {
        for (kind, tally) in KINDS.iter().zip(&self.tallies) {
            println!("{:22}{tally}", kind.name);
        }
        let calls: u64 = self.tallies.iter().map(Tally::calls).sum();
        let seconds = self.start.elapsed().as_secs_f64();
        let cases = self.cases();
        let speed = calls as f64 / seconds;
        let [others, by_rows] = self.drawn();
        println!("{} maps drawn, {by_rows} of them by rows", others + by_rows);
        println!("{cases} cases, {calls} calls, no difference; {seconds:.1} s, {speed:.0} calls a second");
    }
}
