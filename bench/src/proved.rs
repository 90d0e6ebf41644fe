//! The proved library's C functions for points, as they are: the safe calls also
//! make the answers into values of their own, which would be timed with them.

use clearance::{ffi, JOB_NUMBERS, NEAREST_NUMBERS};

/// A job's numbers.
#[derive(Clone, Copy)]
pub struct Row([i32; JOB_NUMBERS]);

impl Row {
    /// Of a sheet, if it is one.
    pub fn of(sheet: &[u8]) -> Option<Row> {
        let mut row = [0; JOB_NUMBERS];
        // SAFETY: a slice, and a whole row of its own.
        let number = unsafe { ffi::clearance_read(sheet.as_ptr(), sheet.len(), &raw mut row) };
        (number == 0).then_some(Row(row))
    }

    /// All spots in one call; the number that it gives.
    pub fn points(&self, spots: &[i32], store: &[i32], reply: &mut [i64]) -> u8 {
        // SAFETY: slices, with their lengths.
        unsafe {
            ffi::clearance_points(
                self.0.as_ptr(),
                JOB_NUMBERS,
                spots.as_ptr(),
                spots.len(),
                store.as_ptr(),
                store.len(),
                reply.as_mut_ptr(),
                reply.len(),
            )
        }
    }

    /// A call for each spot that has room in the reply; the greatest number that
    /// they give.
    pub fn one_by_one(&self, spots: &[i32], store: &[i32], reply: &mut [i64]) -> u8 {
        let answers = reply.as_chunks_mut::<NEAREST_NUMBERS>().0;
        let calls = spots.as_chunks().0.iter().zip(answers);
        let numbers = calls.map(|(&[x, y], answer)| {
            // SAFETY: a slice with its length, and three numbers to write.
            unsafe {
                ffi::clearance_point(
                    self.0.as_ptr(),
                    JOB_NUMBERS,
                    x,
                    y,
                    store.as_ptr(),
                    store.len(),
                    answer.as_mut_ptr(),
                )
            }
        });
        numbers.max().unwrap_or(0)
    }
}
