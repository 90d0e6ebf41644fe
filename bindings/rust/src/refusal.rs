//! The refusals, each with its number and its word: RULES, "Refusals".

use std::error::Error;
use std::fmt;

/// Makes the enum, [`Refusal::ALL`] and [`Refusal::word`] of one list, so that a
/// further refusal is one entry of it.
macro_rules! refusals {
    ($($(#[$doc:meta])+ $name:ident = $number:literal, $word:literal;)+) => {
        /// Why a call was refused. Of several reasons the one with the lowest number is
        /// given; [`points`](crate::points) alone goes by an order of its own.
        ///
        /// ```
        /// use clearance::{read, Refusal};
        ///
        /// let refusal = read(b"(job\n)\n").unwrap_err();
        /// assert_eq!(refusal, Refusal::Form);
        /// assert_eq!((refusal.number(), refusal.word()), (1, "form"));
        /// assert_eq!(refusal.to_string(), "refused 1 (form)");
        /// ```
        // A later minor version may bring a further refusal.
        #[repr(u8)]
        #[non_exhaustive]
        #[derive(Clone, Copy, Debug, PartialEq, Eq, PartialOrd, Ord, Hash)]
        pub enum Refusal {
            $($(#[$doc])+ $name = $number,)+
        }

        impl Refusal {
            /// All of them, in the order of their numbers.
            pub const ALL: &'static [Refusal] = &[$(Refusal::$name),+];

            /// Its word.
            pub fn word(self) -> &'static str {
                match self {
                    $(Refusal::$name => $word,)+
                }
            }
        }
    };
}

refusals! {
    /// The bytes are no job sheet.
    Form = 1, "form";
    /// There are no edges, or more than 64.
    Edges = 2, "edges";
    /// A number is out of its range, an edge's mark is no kind's, one of a
    /// line's last four numbers is not 0, or a place or a mark past the edges is
    /// not zeros.
    Range = 3, "range";
    /// The smallest cell is larger than the plate, or less than a 256th of it.
    Cell = 4, "cell";
    /// An edge is too long for the grain, even after ten halvings.
    Long = 5, "long";
    /// The lent store is too short for the trees.
    Store = 6, "store";
    /// The lent map or sheet is too short, or the reply of the C function for
    /// several points.
    Space = 7, "space";
    /// The store does not begin with the trees of the job.
    Stranger = 8, "stranger";
    /// The row of spots is empty, or longer than 256 of them; for the C function,
    /// also where its last point lacks its y.
    Sheaf = 9, "sheaf";
    /// A clamp counts no columns or no rows, or leaves the map.
    OffPlate = 10, "off plate";
    /// A cell of the map, under a clamp or not, holds a byte other than C, I and D.
    Letter = 11, "letter";
}

impl Refusal {
    /// Its number.
    pub fn number(self) -> u8 {
        self as u8
    }

    /// What the number returned by a C function says.
    pub(crate) fn check(number: u8) -> Result<(), Refusal> {
        if number == 0 {
            return Ok(());
        }
        let refusal = Refusal::ALL.iter().copied().find(|r| r.number() == number);
        Err(refusal.expect("the library refuses with these numbers only"))
    }
}

impl fmt::Display for Refusal {
    fn fmt(&self, out: &mut fmt::Formatter<'_>) -> fmt::Result {
        write!(out, "refused {} ({})", self.number(), self.word())
    }
}

impl Error for Refusal {}
