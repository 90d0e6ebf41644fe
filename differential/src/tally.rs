//! Counts of what was compared.

use crate::kinds::Ties;
use crate::ties::{Test, TESTS};
use clearance_reference::Refusal;
use std::fmt;

/// The greatest number that a call can give.
const GREATEST: usize = Refusal::ALL[Refusal::ALL.len() - 1].number() as usize;

/// Counts of one kind of case.
#[derive(Clone, Copy, Default)]
pub struct Tally {
    /// Cases run.
    pub cases: u64,
    /// Calls compared, by the number they gave.
    pub numbers: [u64; GREATEST + 1],
    /// Ties drawn, by the test.
    ties: [u64; TESTS],
    /// Points whose hi several edges attain, where they are counted.
    shared: u64,
    /// Maps drawn: not by rows, and by rows.
    pub drawn: [u64; 2],
}

impl Tally {
    /// Notes a call by the number it gave.
    pub fn note(&mut self, number: u8) {
        self.numbers[usize::from(number)] += 1;
    }

    /// Notes a tie that was drawn.
    pub fn note_tie(&mut self, test: Test) {
        self.ties[test as usize] += 1;
    }

    /// Notes a point whose hi several edges attain.
    pub fn note_shared(&mut self) {
        self.shared += 1;
    }

    /// Notes a map that was drawn.
    pub fn note_drawn(&mut self, by_rows: bool) {
        self.drawn[usize::from(by_rows)] += 1;
    }

    /// Whether as many ties were drawn as must be.
    pub fn has_drawn(&self, ties: Ties) -> bool {
        match ties {
            Ties::None => true,
            Ties::OfTests => !self.ties.contains(&0),
            Ties::OfEdges => 3 * self.shared >= self.calls(),
        }
    }

    /// Calls compared.
    pub fn calls(&self) -> u64 {
        self.numbers.iter().sum()
    }
}

impl fmt::Display for Tally {
    fn fmt(&self, out: &mut fmt::Formatter<'_>) -> fmt::Result {
        write!(out, "{:7} cases {:8} calls:", self.cases, self.calls())?;
        let given = (0..).zip(self.numbers).filter(|&(_, count)| count > 0);
        let words: Vec<String> = given
            .map(|(number, count)| match number {
                0 => format!("{count} accepted"),
                _ => format!("{count} refused {number}"),
            })
            .collect();
        write!(out, " {}", words.join(", "))?;
        let [inside, apart, no_axis, across] = self.ties;
        if self.ties != [0; TESTS] {
            write!(
                out,
                "; ties: {inside} inside, {apart} apart, {no_axis} apart without an axis, {across} across"
            )?;
        }
        if self.shared > 0 {
            write!(out, "; ties: {} of edges", self.shared)?;
        }
        let [others, by_rows] = self.drawn;
        if self.drawn != [0; 2] {
            write!(out, "; drawn: {by_rows} by rows, {others} not")?;
        }
        Ok(())
    }
}
