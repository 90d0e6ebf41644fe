//! Lines: read, kept as lines by the writer, drawn and asked about; and rows with
//! and without marks.

use clearance::{
    ffi, map, point, read, write, Job, Refusal, CUBIC, JOB_NUMBERS, LINE, MARKS, NODE_NUMBERS,
    PLACES,
};

/// A line between two cubics, all of one point but the line.
const SHEET: &[u8] = b"(job\n(plate -8 -8 4)\n(cell 1)\n(reach 4)\n(grain 2)\n\
    (edge (0 0) (0 0) (0 0) (0 0))\n(line (-6 -3) (6 3))\n(edge (1 1) (1 1) (1 1) (1 1))\n)\n";

fn job() -> Job {
    read(SHEET).unwrap()
}

/// The job's numbers as the C functions take them.
fn row(job: &Job) -> [i32; JOB_NUMBERS] {
    let mut row = [0; JOB_NUMBERS];
    row[..PLACES].copy_from_slice(&[job.x, job.y, job.n, job.m, job.reach, job.grain, job.count]);
    row[PLACES..MARKS].copy_from_slice(&job.places);
    row[MARKS..].copy_from_slice(&job.marks);
    row
}

/// The sheet of the first numbers of a row, or the refusal's number.
fn written(row: &[i32]) -> Result<Vec<u8>, u8> {
    let (mut sheet, mut bytes) = (vec![0; clearance::SHEET_WRITTEN_MOST], 0);
    // SAFETY: all three are whole and apart.
    let number = unsafe {
        ffi::clearance_write(
            row.as_ptr(),
            row.len(),
            sheet.as_mut_ptr(),
            sheet.len(),
            &raw mut bytes,
        )
    };
    sheet.truncate(bytes);
    if number == 0 {
        Ok(sheet)
    } else {
        Err(number)
    }
}

#[test]
fn a_line_is_read_and_written_as_one() {
    let job = job();
    assert_eq!(job.marks[..4], [CUBIC, LINE, CUBIC, CUBIC]);
    assert_eq!(job.places[8..16], [-6, -3, 6, 3, 0, 0, 0, 0]);
    let mut sheet = [0; 200];
    let length = write(&job, &mut sheet).unwrap();
    assert_eq!(&sheet[..length], SHEET);
}

#[test]
fn a_line_is_drawn_without_rounding() {
    let (mut store, mut cells) = ([0; NODE_NUMBERS * 9], [0; 64]);
    assert_eq!(map(&job(), &mut store, &mut cells), Ok(9));
    let line = &store[NODE_NUMBERS..2 * NODE_NUMBERS];
    assert_eq!(line, [0, 0, 96, 48, 0, 0, 7, -96, -48, 96, 48]);
    let nearest = point(&job(), 6, 3, &store).unwrap();
    assert_eq!((nearest.lo, nearest.edge), (0, 1));
}

#[test]
fn what_a_line_may_not_have_is_out_of_range() {
    let refused = |change: fn(&mut Job)| {
        let mut job = job();
        change(&mut job);
        write(&job, &mut [0; 200])
    };
    for spare in [
        |job: &mut Job| job.places[12] = 1,
        |job: &mut Job| job.places[13] = -1,
        |job: &mut Job| job.places[14] = 7,
        |job: &mut Job| job.places[15] = 1_000_000,
    ] {
        assert_eq!(refused(spare), Err(Refusal::Range));
    }
    assert_eq!(refused(|job| job.marks[1] = 2), Err(Refusal::Range));
    assert_eq!(refused(|job| job.marks[1] = -1), Err(Refusal::Range));
    assert_eq!(refused(|job| job.marks[3] = LINE), Err(Refusal::Range));
    assert_eq!(refused(|job| job.marks[63] = LINE), Err(Refusal::Range));
    assert!(refused(|job| job.marks[1] = CUBIC).is_ok());
}

#[test]
fn a_row_without_marks_has_cubics_alone() {
    let whole = row(&job());
    let cubics = row(&Job {
        marks: [CUBIC; 64],
        ..job()
    });
    assert_eq!(written(&whole).unwrap(), SHEET);
    assert_eq!(written(&whole[..MARKS + 2]).unwrap(), SHEET);
    assert_eq!(written(&whole[..MARKS + 1]), written(&cubics));
    assert_eq!(written(&whole[..MARKS]), written(&cubics));
    assert_eq!(written(&[&whole[..], &[LINE]].concat()).unwrap(), SHEET);
}
