//! The refusals of RULES, "Refusals".

use std::fmt;

/// Makes the enum, [`Refusal::ALL`] and [`Refusal::word`] of one list, so that a
/// further refusal is one entry of it.
macro_rules! refusals {
    ($($(#[$doc:meta])+ $name:ident = $number:literal, $word:literal;)+) => {
        /// Why a call was refused.
        #[repr(u8)]
        #[derive(Clone, Copy, Debug, PartialEq, Eq, PartialOrd, Ord, Hash)]
        pub enum Refusal {
            $($(#[$doc])+ $name = $number,)+
        }

        impl Refusal {
            /// All of them, in the order of their numbers.
            pub const ALL: &'static [Refusal] = &[$(Refusal::$name),+];

            /// Its word.
            pub fn word(self) -> &'static str {
                match self {
                    $(Refusal::$name => $word,)+
                }
            }
        }
    };
}

refusals! {
    /// The bytes are no job sheet.
    Form = 1, "form";
    /// Too few or too many edges.
    Edges = 2, "edges";
    /// Some number is out of its range.
    Range = 3, "range";
    /// The smallest cell does not suit the plate.
    Cell = 4, "cell";
    /// The deepest piece of some edge is still too long for the grain.
    Long = 5, "long";
    /// The lent store is too small for the trees.
    Store = 6, "store";
    /// The lent map, sheet or reply is too small.
    Space = 7, "space";
    /// The lent store holds other trees.
    Stranger = 8, "stranger";
    /// No spots, too many, or a spot without its second number.
    Sheaf = 9, "sheaf";
}

impl Refusal {
    /// Its number.
    pub const fn number(self) -> u8 {
        self as u8
    }
}

impl fmt::Display for Refusal {
    fn fmt(&self, out: &mut fmt::Formatter<'_>) -> fmt::Result {
        write!(out, "{} ({})", self.number(), self.word())
    }
}

impl std::error::Error for Refusal {}
