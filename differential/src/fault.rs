//! Where the library and the second implementation part.

use crate::lent::{Lent, Mark};
use std::fmt;

/// One call and in what it differs.
pub struct Fault {
    call: String,
    difference: String,
}

impl fmt::Display for Fault {
    fn fmt(&self, out: &mut fmt::Formatter<'_>) -> fmt::Result {
        write!(out, "  {}\n  {}", self.difference, self.call)
    }
}

/// Compares the parts of one call, one after the other, and keeps the first
/// difference.
#[derive(Default)]
pub struct Comparison {
    difference: Option<String>,
}

impl Comparison {
    /// Compares two values.
    pub fn value<T: PartialEq + fmt::Debug>(mut self, name: &str, got: T, want: T) -> Comparison {
        if self.difference.is_none() && got != want {
            self.difference = Some(format!("{name}: library {got:?}, reference {want:?}"));
        }
        self
    }

    /// Compares two slices of the same length.
    pub fn slice<T: PartialEq + fmt::Debug>(self, name: &str, got: &[T], want: &[T]) -> Comparison {
        match got.iter().zip(want).position(|(got, want)| got != want) {
            None => self,
            Some(at) => self.value(&format!("{name}[{at}]"), &got[at], &want[at]),
        }
    }

    /// Compares two stretches of lent memory and their guards.
    pub fn memory<T: Mark>(mut self, name: &str, got: &Lent<T>, want: &Lent<T>) -> Comparison {
        if self.difference.is_none() {
            self.difference = got.difference(want, name);
        }
        self
    }

    /// Asks something of the library alone.
    pub fn demand(mut self, holds: bool, difference: impl FnOnce() -> String) -> Comparison {
        if self.difference.is_none() && !holds {
            self.difference = Some(difference());
        }
        self
    }

    /// The fault, if there is a difference; the call is only then described.
    pub fn finish(self, call: impl FnOnce() -> String) -> Result<(), Fault> {
        match self.difference {
            None => Ok(()),
            Some(difference) => Err(Fault {
                call: call(),
                difference,
            }),
        }
    }
}

/// The number of a result of the second implementation, 0 where accepted.
pub fn number_of<T>(result: &Result<T, clearance_reference::Refusal>) -> u8 {
    result.as_ref().err().map_or(0, |refusal| refusal.number())
}
