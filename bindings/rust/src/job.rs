//! The job: its plate, its limits and its outline.

/// The most edges of a job, and the places and marks for them.
pub const EDGES_MOST: usize = 64;
/// The numbers of a place: x and y of a cubic's four control points.
pub const PLACE_NUMBERS: usize = 8;
/// Those of them that a line has: x and y of its two ends.
pub const LINE_NUMBERS: usize = 4;
/// Where the places begin among the numbers of a job.
pub const PLACES: usize = 7;
/// Where the marks begin among the numbers of a job.
pub const MARKS: usize = PLACES + EDGES_MOST * PLACE_NUMBERS;
/// All the numbers of a job.
pub const JOB_NUMBERS: usize = MARKS + EDGES_MOST;

/// The mark of a cubic.
pub const CUBIC: i32 = 0;
/// The mark of a line.
pub const LINE: i32 = 1;

/// A job, legal or not: every field takes any value.
///
/// ```
/// use clearance::{write, Job, Refusal};
///
/// let mut job = Job { n: 4, m: 1, reach: 4, grain: 10, ..Job::ZERO };
/// let mut sheet = [0; clearance::SHEET_WRITTEN_MOST];
/// assert_eq!(write(&job, &mut sheet), Err(Refusal::Edges));
///
/// job.count = 1;
/// job.places[..8].copy_from_slice(&[0, 0, 0, 5, 5, 0, 5, 5]);
/// let length = write(&job, &mut sheet)?;
/// assert!(sheet[..length].ends_with(b"(edge (0 0) (0 5) (5 0) (5 5))\n)\n"));
/// # Ok::<(), Refusal>(())
/// ```
///
/// A line has a mark, its two ends in the first four numbers of its place, and
/// zeros in the other four.
///
/// ```
/// use clearance::{write, Job, Refusal, LINE};
///
/// let mut job = Job { n: 4, m: 1, reach: 4, grain: 10, count: 1, ..Job::ZERO };
/// job.places[..4].copy_from_slice(&[0, 0, 5, 5]);
/// job.marks[0] = LINE;
/// let mut sheet = [0; clearance::SHEET_WRITTEN_MOST];
/// let length = write(&job, &mut sheet)?;
/// assert!(sheet[..length].ends_with(b"(line (0 0) (5 5))\n)\n"));
///
/// job.places[7] = 1;
/// assert_eq!(write(&job, &mut sheet), Err(Refusal::Range));
/// # Ok::<(), Refusal>(())
/// ```
// The fields stand in the order of the numbers in the C functions' rows.
#[repr(C)]
#[derive(Clone, Copy, Debug, PartialEq, Eq, Hash)]
pub struct Job {
    /// The plate's lower left corner, across: -1,000,000 to 1,000,000.
    pub x: i32,
    /// The plate's lower left corner, upward: -1,000,000 to 1,000,000.
    pub y: i32,
    /// The plate's side is 2 to this power: 0 to 20.
    pub n: i32,
    /// The smallest cell's side is 2 to this power: 0 to 20, from `n - 8` to `n`.
    pub m: i32,
    /// How far from the outline is still inside: 1 to 1,000,000.
    pub reach: i32,
    /// Half the width and height that a leaf may have: 1 to 100,000.
    pub grain: i32,
    /// How many of the places are edges: 1 to 64.
    pub count: i32,
    /// The places, eight numbers each, from -1,000,000 to 1,000,000: a cubic's
    /// x0 y0 x1 y1 x2 y2 x3 y3, or a line's x0 y0 x1 y1 and four zeros. All
    /// zeros past the count.
    pub places: [i32; EDGES_MOST * PLACE_NUMBERS],
    /// What the edge of each place is, [`CUBIC`] or [`LINE`], and 0 past the
    /// count.
    pub marks: [i32; EDGES_MOST],
}

const _: () = assert!(size_of::<Job>() == size_of::<[i32; JOB_NUMBERS]>());
const _: () = assert!(std::mem::offset_of!(Job, places) == PLACES * size_of::<i32>());
const _: () = assert!(std::mem::offset_of!(Job, marks) == MARKS * size_of::<i32>());

impl Job {
    /// The job of zeros, which every call refuses.
    pub const ZERO: Job = Job {
        x: 0,
        y: 0,
        n: 0,
        m: 0,
        reach: 0,
        grain: 0,
        count: 0,
        places: [0; EDGES_MOST * PLACE_NUMBERS],
        marks: [CUBIC; EDGES_MOST],
    };

    /// The job's numbers for the C functions.
    pub(crate) fn as_ptr(&self) -> *const i32 {
        (&raw const *self).cast()
    }

    /// The job's numbers for the C functions to write.
    pub(crate) fn as_mut_ptr(&mut self) -> *mut [i32; JOB_NUMBERS] {
        (&raw mut *self).cast()
    }
}

impl Default for Job {
    fn default() -> Job {
        Job::ZERO
    }
}
