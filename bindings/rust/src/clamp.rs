//! The clamps of table four, and whether they may stand where they do.

/// How many clamps table four has.
pub const CLAMPS_COUNT: usize = 4;
/// The numbers of a clamp for the C function: first column, first row, columns,
/// rows.
const CLAMP_NUMBERS: usize = 4;
/// The numbers of all clamps for the C function.
pub const CLAMPS_NUMBERS: usize = CLAMPS_COUNT * CLAMP_NUMBERS;
/// The numbers of its answer: go, clamp, column, row.
pub const PLACED_NUMBERS: usize = 4;

/// A clamp of table four, a rectangle of a map's smallest cells; every field takes
/// any value.
#[derive(Clone, Copy, Debug, PartialEq, Eq, Hash)]
pub struct Clamp {
    /// Its leftmost column, from 0.
    pub column: usize,
    /// Its lowest row, from 0.
    pub row: usize,
    /// How many columns it has: 1 or more.
    pub columns: usize,
    /// How many rows it has: 1 or more.
    pub rows: usize,
}

impl Clamp {
    /// Its numbers in the order of the C function.
    pub(crate) fn numbers(self) -> [usize; CLAMP_NUMBERS] {
        [self.column, self.row, self.columns, self.rows]
    }
}

/// What is found under the clamps. A stop is no [`Refusal`](crate::Refusal): the
/// call is accepted, and its answer has to be looked at.
#[must_use = "a stop is an answer and no refusal"]
#[derive(Clone, Copy, Debug, PartialEq, Eq, Hash)]
pub enum Placed {
    /// Every cell under every clamp is C.
    Go,
    /// Some cell under a clamp is not C.
    Stopped {
        /// The first such clamp, in the order given and from 0.
        clamp: usize,
        /// The map's column of this clamp's lowest cell that is not C, of several in
        /// a row the leftmost; from 0.
        column: usize,
        /// That cell's row of the map, from 0.
        row: usize,
    },
}

impl Placed {
    /// From the numbers that the C function wrote. Only a 1 is a go.
    pub(crate) fn of([go, clamp, column, row]: [usize; PLACED_NUMBERS]) -> Placed {
        match go {
            1 => Placed::Go,
            _ => Placed::Stopped { clamp, column, row },
        }
    }
}
