//! What the measurement compares beside the proved library and the second
//! implementation: the drawing and the points of the proved one in plain Rust, the
//! sampling of old, and outlines without lines.

#![warn(missing_docs)]

pub mod exact;
pub mod same_tricks;
pub mod sampling;
pub mod straight;
