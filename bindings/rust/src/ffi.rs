//! The C functions of the library as `include/clearance.h` declares them, for
//! callers that want what a refused call leaves. All others take the safe
//! functions of the crate.
//!
//! A slice is a pointer and its length; with the length 0 the pointer may be
//! null, and no other pointer is. A job is a row of [`JOB_NUMBERS`] numbers: one
//! is read into a whole row, and of one that is lent with its length those that a
//! shorter row lacks are taken as 0, and past a longer row's end nothing is
//! looked at. The marks stand last: a row of [`MARKS`](crate::MARKS) numbers or
//! fewer has cubics alone. The number returned is 0 or a refusal's.

use crate::job::JOB_NUMBERS;

extern "C" {
    /// Tells which library this is: see [`VERSION`](crate::VERSION).
    ///
    /// # Safety
    /// It takes nothing and writes nothing.
    pub fn clearance_version() -> u64;

    /// Reads a sheet into a job's row. Gives 0 to 4. A refused call writes
    /// nothing.
    ///
    /// # Safety
    /// `sheet` holds `sheet_len` bytes and `job` has a row to write, which
    /// overlaps nothing else.
    pub fn clearance_read(sheet: *const u8, sheet_len: usize, job: *mut [i32; JOB_NUMBERS]) -> u8;

    /// Writes a job's sheet, and how many bytes it has to `bytes`. A refused call
    /// writes nothing.
    ///
    /// # Safety
    /// `job` holds `job_len` numbers, `out` has `out_len` bytes to write and
    /// `bytes` one number. What is written overlaps nothing else.
    pub fn clearance_write(
        job: *const i32,
        job_len: usize,
        out: *mut u8,
        out_len: usize,
        bytes: *mut usize,
    ) -> u8;

    /// Builds the trees and draws the map, and writes how many nodes there are to
    /// `nodes`. A refused call writes nothing.
    ///
    /// # Safety
    /// `job` holds `job_len` numbers, `store` has `store_len` numbers to write,
    /// `cells` `cells_len` bytes and `nodes` one number. What is written overlaps
    /// nothing else.
    pub fn clearance_map(
        job: *const i32,
        job_len: usize,
        store: *mut i32,
        store_len: usize,
        cells: *mut u8,
        cells_len: usize,
        nodes: *mut usize,
    ) -> u8;

    /// Bounds a point's distance: lo, hi and the first edge that gives hi. A
    /// refused call writes nothing.
    ///
    /// # Safety
    /// `job` holds `job_len` numbers, `store` `store_len`, and `nearest` has three
    /// to write, which overlap nothing else.
    pub fn clearance_point(
        job: *const i32,
        job_len: usize,
        x: i32,
        y: i32,
        store: *const i32,
        store_len: usize,
        nearest: *mut i64,
    ) -> u8;

    /// Bounds the distances of several points, x and y of each in `spots`: lo, hi
    /// and the first edge that gives hi of each, one behind the other. Gives the
    /// first of 2, 3, 4, 9, 5, 6, 7 and 8, in this order, that applies. A refused
    /// call writes nothing.
    ///
    /// # Safety
    /// `job` holds `job_len` numbers, `spots` `spots_len`, `store` `store_len`, and
    /// `reply` has `reply_len` to write, which overlap nothing else.
    pub fn clearance_points(
        job: *const i32,
        job_len: usize,
        spots: *const i32,
        spots_len: usize,
        store: *const i32,
        store_len: usize,
        reply: *mut i64,
        reply_len: usize,
    ) -> u8;

    /// Looks at the cells under the four clamps of table four: first column, first
    /// row, columns and rows of each in turn. Writes go (1 or 0), clamp, column and
    /// row to `placed`; a stop is accepted. A refused call writes nothing.
    ///
    /// # Safety
    /// `job` holds `job_len` numbers, `cells` `cells_len` bytes, `clamps` holds
    /// [`CLAMPS_NUMBERS`](crate::CLAMPS_NUMBERS), and `placed` has four to write,
    /// which overlap nothing else.
    pub fn clearance_clamps(
        job: *const i32,
        job_len: usize,
        cells: *const u8,
        cells_len: usize,
        clamps: *const usize,
        placed: *mut usize,
    ) -> u8;
}
