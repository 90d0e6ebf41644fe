//! Calls that lend nothing: empty slices, which in Rust are never null, and null
//! pointers with the length 0, which the C functions take for empty slices.

use clearance::{ffi, map, point, points, read, write, Job, Refusal, JOB_NUMBERS};
use std::ptr;

const SHEET: &[u8] =
    b"(job\n(plate 0 0 1)\n(cell 0)\n(reach 90)\n(edge (0 0) (0 0) (0 0) (0 0))\n)\n";

fn job() -> Job {
    read(SHEET).unwrap()
}

/// However an empty slice comes about.
fn empty_slices<T: Default + Clone>() -> Vec<Vec<T>> {
    vec![Vec::new(), vec![], vec![T::default(); 9].split_off(9)]
}

/// The address that a call is given for a slice.
fn address<T>(slice: &[T]) -> usize {
    slice.as_ptr().addr()
}

#[test]
fn an_empty_slice_is_never_null() {
    assert_ne!(address::<u8>(&[]), 0);
    assert_ne!(address(&[1, 2][2..]), 0);
    assert_ne!(address(<&mut [u8]>::default()), 0);
    assert!(empty_slices::<u8>().iter().all(|v| address(v) != 0));
    assert!(empty_slices::<i32>().iter().all(|v| address(v) != 0));
    let pairs = empty_slices::<[i32; 2]>();
    assert!(pairs.iter().all(|v| address(v.as_flattened()) != 0));
}

#[test]
fn safe_calls_take_empty_slices() {
    let job = job();
    for (mut bytes, mut store) in empty_slices().into_iter().zip(empty_slices()) {
        assert_eq!(read(&bytes), Err(Refusal::Form));
        assert_eq!(write(&job, &mut bytes), Err(Refusal::Space));
        assert_eq!(map(&job, &mut store, &mut [0; 4]), Err(Refusal::Store));
        assert_eq!(map(&job, &mut [0; 11], &mut bytes), Err(Refusal::Space));
        assert_eq!(point(&job, 3, 4, &store), Err(Refusal::Store));
        assert_eq!(points(&job, &[[3, 4]], &store), Err(Refusal::Store));
    }
    for spots in empty_slices() {
        assert_eq!(points(&job, &spots, &[0; 11]), Err(Refusal::Sheaf));
        assert_eq!(points(&job, &spots, &[]), Err(Refusal::Sheaf));
        assert_eq!(points(&Job::ZERO, &spots, &[]), Err(Refusal::Edges));
    }
}

#[test]
fn null_with_the_length_0_is_an_empty_slice() {
    let mut row = [7; JOB_NUMBERS];
    let (mut count, mut nearest) = (7, [7; 3]);
    let (spot, trees) = ([3, 4], [0; 11]);
    let (many, reply) = (ffi::clearance_points, ptr::null_mut::<i64>());
    // SAFETY: a null pointer has the length 0, and the others are whole.
    unsafe {
        assert_eq!(ffi::clearance_read(ptr::null(), 0, &raw mut row), 1);
        assert_eq!(row, [7; JOB_NUMBERS]);
        let (none, out) = (ptr::null::<i32>(), ptr::null_mut::<u8>());
        assert_eq!(ffi::clearance_write(none, 0, out, 0, &raw mut count), 2);
        assert_eq!(
            ffi::clearance_point(none, 0, 3, 4, none, 0, nearest.as_mut_ptr()),
            2
        );
        assert_eq!(many(none, 0, none, 0, none, 0, reply, 0), 2);

        assert_eq!(
            ffi::clearance_read(SHEET.as_ptr(), SHEET.len(), &raw mut row),
            0
        );
        let (job, store) = (row.as_ptr(), ptr::null_mut::<i32>());
        assert_eq!(
            ffi::clearance_write(job, row.len(), out, 0, &raw mut count),
            7
        );
        assert_eq!(
            ffi::clearance_map(job, row.len(), store, 0, out, 0, &raw mut count),
            6
        );
        assert_eq!(
            ffi::clearance_point(job, row.len(), 3, 4, none, 0, nearest.as_mut_ptr()),
            6
        );
        let (spot, trees) = (spot.as_ptr(), trees.as_ptr());
        let three = nearest.as_mut_ptr();
        assert_eq!(many(job, row.len(), none, 0, trees, 11, three, 3), 9);
        assert_eq!(many(job, row.len(), spot, 2, none, 0, three, 3), 6);
        assert_eq!(many(job, row.len(), spot, 2, trees, 11, reply, 0), 7);
        assert_eq!(many(job, row.len(), none, 0, none, 0, reply, 0), 9);
    }
    assert_eq!((count, nearest), (7, [7; 3]));
}
