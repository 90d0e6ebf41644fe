//! Clearance maps of square plates: safe calls of the proved library.
//!
//! [`read`] and [`write()`] turn a job sheet into a [`Job`] and back, [`map`]
//! draws the clearance map of a job, and [`point`] bounds the distance of a
//! point from its outline, [`points`] those of up to 256 at once. [`clamps`] tells
//! whether the four clamps of table four stand on a map's clear cells alone. Each
//! takes any argument whatever and gives an answer or a [`Refusal`]. Lengths are
//! whole hundredths of a millimetre.
//!
//! Lent memory: a refused call changes nothing, and an accepted one nothing past
//! what it writes. A library with other rows or nodes than this crate's ends the
//! program at the first call and is not misread.
//!
//! ```
//! let sheet = b"(job\n(plate -8 -8 4)\n(cell 1)\n(reach 4)\n(grain 1)\n\
//!     (edge (0 0) (0 0) (0 0) (0 0))\n)\n";
//! let job = clearance::read(sheet)?;
//!
//! let mut store = vec![0; clearance::STORE_MOST];
//! let mut cells = vec![0; clearance::CELLS_MOST];
//! let nodes = clearance::map(&job, &mut store, &mut cells)?;
//! assert_eq!(nodes, 1);
//!
//! let side = 1 << (job.n - job.m);
//! let rows: Vec<&[u8]> = cells.chunks(side).take(side).collect();
//! assert_eq!(rows[2], b"CCDDDDCC");
//! assert_eq!(rows[3], b"CCDIIDCC");
//!
//! let nearest = clearance::point(&job, 3, 4, &store)?;
//! assert_eq!((nearest.lo, nearest.hi, nearest.edge), (6400, 6400, 0));
//! # Ok::<(), clearance::Refusal>(())
//! ```

#![warn(missing_docs)]
#![deny(unsafe_op_in_unsafe_fn)]

mod calls;
mod clamp;
pub mod ffi;
mod job;
mod nearest;
mod refusal;
mod version;

pub use calls::{clamps, map, point, points, read, write};
pub use clamp::{Clamp, Placed, CLAMPS_COUNT, CLAMPS_NUMBERS, PLACED_NUMBERS};
pub use job::{
    Job, CUBIC, EDGES_MOST, JOB_NUMBERS, LINE, LINE_NUMBERS, MARKS, PLACES, PLACE_NUMBERS,
};
pub use nearest::{Nearest, NEAREST_NUMBERS};
pub use refusal::Refusal;
pub use version::{version, VERSION};

/// The most bytes of a sheet that is read.
pub const SHEET_READ_MOST: usize = 8_192;
/// The most bytes of a sheet that is written: enough for every job.
pub const SHEET_WRITTEN_MOST: usize = 5_645;
/// The most cells of a map, one byte each: enough for every job.
pub const CELLS_MOST: usize = 65_536;
/// The numbers of a node in the store: centre, axis and box of its strip, x and
/// y each, and the count of nodes in its subtree; then least x and y and greatest
/// x and y of the upright box around its leaves.
pub const NODE_NUMBERS: usize = 11;
/// The most numbers of a store: enough for every job.
pub const STORE_MOST: usize = 1_441_088;
/// The most spots of one call of [`points`].
pub const SPOTS_MOST: usize = 256;

// Its program runs with the examples of the documentation.
#[cfg(doctest)]
#[doc = include_str!("../README.md")]
struct Readme;
