//! An edge of the outline, a cubic or a line: RULES, "Jobs".

/// Numbers in the place of one edge: x and y of a cubic's control points.
pub const NUMBERS_AN_EDGE: usize = 8;
/// Those that a line uses: x and y of its two ends.
pub const NUMBERS_A_LINE: usize = 4;
/// The mark of a place that holds a cubic.
pub const CUBIC_MARK: i32 = 0;
/// The mark of a place that holds a line.
pub const LINE_MARK: i32 = 1;

/// An edge, of any numbers at all.
#[derive(Clone, Copy, Debug, PartialEq, Eq)]
pub enum Edge {
    /// A cubic by its control points: x0 y0 x1 y1 x2 y2 x3 y3.
    Cubic([i32; NUMBERS_AN_EDGE]),
    /// A line by its ends: x0 y0 x1 y1.
    Line([i32; NUMBERS_A_LINE]),
}

impl Edge {
    /// The edge in a place of a legal job.
    pub fn of(mark: i32, place: &[i32; NUMBERS_AN_EDGE]) -> Edge {
        let [x0, y0, x1, y1, ..] = *place;
        match mark {
            LINE_MARK => Edge::Line([x0, y0, x1, y1]),
            _ => Edge::Cubic(*place),
        }
    }

    /// The mark of its place.
    pub fn mark(&self) -> i32 {
        match self {
            Edge::Cubic(_) => CUBIC_MARK,
            Edge::Line(_) => LINE_MARK,
        }
    }

    /// The numbers of its place.
    pub fn place(&self) -> [i32; NUMBERS_AN_EDGE] {
        match *self {
            Edge::Cubic(controls) => controls,
            Edge::Line([x0, y0, x1, y1]) => [x0, y0, x1, y1, 0, 0, 0, 0],
        }
    }
}
