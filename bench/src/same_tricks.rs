//! Drawing the map from a finished store, and several points in one call, by the
//! same algorithm and with the same savings as the proved library, in plain Rust:
//! how fast that can be without proofs. Tests hold the letters and the answers to
//! the reference's, byte for byte.
//!
//! The drawing:
//! - The trees are numbers in one slice, and each tree is searched as a part, by
//!   one loop that steps past the subtree of a node that is away.
//! - No square root is taken: a division and a square settle the slanted test.
//! - An edge that is away from a cell is not asked again in its quarters.
//! - Where a cell is too wide to be inside, the first maybe leaf settles a tree.
//!
//! The points:
//! - The store is compared once, up to its first difference, while the trees are
//!   worked out and not kept.
//! - Each spot is looked up by one loop a tree, which steps past the subtree of a
//!   node whose box is too far.

mod check;
mod draw;
mod points;
mod search;

pub use draw::draw;
pub use points::points;
