//! The bounds on the distance of a point.

/// The numbers of a point's answer from the C functions: lo, hi, edge.
pub const NEAREST_NUMBERS: usize = 3;

/// Bounds on a point's distance from the outline, in squared fine units; a fine
/// unit is a sixteenth of a hundredth of a millimetre.
#[derive(Clone, Copy, Debug, PartialEq, Eq, Hash)]
pub struct Nearest {
    /// No point of the outline is nearer than this.
    pub lo: i64,
    /// Some point of the outline is within this.
    pub hi: i64,
    /// The first edge, in the order of the job and from 0, one of whose leaves
    /// gives `hi` (theorem `point_told` of the C function).
    pub edge: usize,
}

impl Nearest {
    /// From the numbers that a C function wrote.
    pub(crate) fn of([lo, hi, edge]: [i64; NEAREST_NUMBERS]) -> Nearest {
        let edge = usize::try_from(edge).expect("the library names an edge from 0 to 63");
        Nearest { lo, hi, edge }
    }
}
