//! A second implementation of the clearance map, written from the rules
//! alone and apart from the proved code. It favours code that is plainly right over code that is fast: the
//! strips are worked out in `i128`, the trees are linked values and not
//! numbers in a slice, and nothing is saved between calls.
//!
//! The five entries are [`read`], [`write()`], [`map`], [`point`] and [`points`].
//! Each takes any argument whatever and gives a result or a [`Refusal`]. A point's
//! lookup can also be asked how many nodes it read: [`point_with_reads`].

#![forbid(unsafe_code)]
#![warn(missing_docs)]

pub mod boxes;
mod edge;
mod entries;
pub mod explore;
mod job;
pub mod listing;
mod plate;
mod point;
pub mod probe;
pub mod probe_rows;
mod refusal;
mod sheet;
pub mod strips;
pub mod trees;

pub use edge::{Edge, CUBIC_MARK, LINE_MARK, NUMBERS_AN_EDGE, NUMBERS_A_LINE};
pub use entries::{map, point, point_with_reads, points, read, reply_length, write, SPOT_LIMIT};
pub use job::{
    judge, judge_with_spots, Job, COORDINATE_LIMIT, EDGE_LIMIT, GRAIN_LIMIT, REACH_LIMIT,
};
pub use point::{lookup, Lookup, Nearest};
pub use refusal::Refusal;
pub use sheet::{DEFAULT_GRAIN, SHEET_LIMIT};
