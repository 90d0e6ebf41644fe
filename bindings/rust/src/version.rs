//! Which library is linked, and whether its rows and nodes are the ones that this
//! crate was written for.

use crate::ffi;
use crate::job::JOB_NUMBERS;
use crate::NODE_NUMBERS;

/// A part of this crate's version.
const fn part(digits: &str) -> u64 {
    match u64::from_str_radix(digits, 10) {
        Ok(number) => number,
        Err(_) => panic!("a part of the version is no number"),
    }
}

/// The header's `CLEARANCE_VERSION`: the length of a job's row, that of a node,
/// and the version, one behind the other in decimal.
pub const VERSION: u64 = (((JOB_NUMBERS as u64 * 100 + NODE_NUMBERS as u64) * 1000
    + part(env!("CARGO_PKG_VERSION_MAJOR")))
    * 1000
    + part(env!("CARGO_PKG_VERSION_MINOR")))
    * 1000
    + part(env!("CARGO_PKG_VERSION_PATCH"));

/// The version that the linked library tells.
///
/// ```
/// assert_eq!(clearance::version(), clearance::VERSION);
/// assert_eq!(clearance::VERSION / 1_000_000_000, 58_311);
/// ```
pub fn version() -> u64 {
    // SAFETY: it takes nothing and writes nothing.
    unsafe { ffi::clearance_version() }
}

/// Ends the program where the linked library has other rows or nodes, or is of
/// another major version: its numbers would be misread.
pub(crate) fn assert_fits() {
    assert_eq!(
        version() / 1_000_000,
        VERSION / 1_000_000,
        "the linked libclearance.a has other rows, nodes or functions than this crate"
    );
}
