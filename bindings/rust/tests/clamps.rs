//! The clamps of table four: goes and stops, every rectangle of a map that is not
//! its own mirror image, what a refused call leaves, and which refusal comes first.

use clearance::{
    clamps, ffi, map, read, Clamp, Job, Placed, Refusal, CLAMPS_NUMBERS, JOB_NUMBERS,
    PLACED_NUMBERS, STORE_MOST,
};

/// One point in the middle: rows 2 and 5 are CCDDDDCC, 3 and 4 CCDIIDCC.
const DOT: &[u8] = b"(job\n(plate -8 -8 4)\n(cell 1)\n(reach 4)\n(grain 1)\n\
    (edge (0 0) (0 0) (0 0) (0 0))\n)\n";
/// A level line: row 2 is CDDDDDDC.
const LEVEL: &[u8] = b"(job\n(plate 0 0 4)\n(cell 1)\n(reach 1)\n(grain 1)\n\
    (line (3 5) (12 5))\n)\n";
/// A slanted line: row 0 is CCCCCCDD, row 1 CCCCCDDD, row 2 CCCCDDDC.
const SLANT: &[u8] = b"(job\n(plate 0 0 4)\n(cell 1)\n(reach 1)\n(grain 1)\n\
    (line (14 2) (2 14))\n)\n";
/// Nothing near: 256 cells a side, all clear.
const FAR: &[u8] = b"(job\n(plate 0 0 8)\n(cell 0)\n(reach 1)\n(line (999 9) (999 9))\n)\n";
/// One cell, which is in reach.
const ONE: &[u8] = b"(job\n(plate 0 0 0)\n(cell 0)\n(reach 9)\n(line (0 0) (0 0))\n)\n";

/// The two lowest rows of eight cells.
const LOW: [usize; 4] = [0, 0, 8, 2];

fn drawn(sheet: &[u8]) -> (Job, Vec<u8>) {
    let job = read(sheet).unwrap();
    let mut cells = vec![0; 1 << (2 * (job.n - job.m))];
    map(&job, &mut vec![0; STORE_MOST], &mut cells).unwrap();
    (job, cells)
}

fn four(numbers: [[usize; 4]; 4]) -> [Clamp; 4] {
    numbers.map(|[column, row, columns, rows]| Clamp {
        column,
        row,
        columns,
        rows,
    })
}

/// The answer on the map of a sheet.
fn asked(sheet: &[u8], numbers: [[usize; 4]; 4]) -> Result<Placed, Refusal> {
    let (job, cells) = drawn(sheet);
    clamps(&job, &cells, &four(numbers))
}

fn stopped(clamp: usize, column: usize, row: usize) -> Result<Placed, Refusal> {
    Ok(Placed::Stopped { clamp, column, row })
}

/// The C function with the job and the clamps: its number, and what it leaves of
/// four different numbers.
fn left(job: &[i32], cells: &[u8], numbers: [[usize; 4]; 4]) -> (u8, [usize; PLACED_NUMBERS]) {
    let mut placed = [6, 7, 8, 9];
    let clamps = numbers.as_flattened();
    assert_eq!(clamps.len(), CLAMPS_NUMBERS);
    // SAFETY: all are whole and apart.
    let number = unsafe {
        ffi::clearance_clamps(
            job.as_ptr(),
            job.len(),
            cells.as_ptr(),
            cells.len(),
            clamps.as_ptr(),
            placed.as_mut_ptr(),
        )
    };
    (number, placed)
}

/// The row of a sheet's job.
fn row(sheet: &[u8]) -> [i32; JOB_NUMBERS] {
    let mut row = [0; JOB_NUMBERS];
    // SAFETY: a slice, and a whole row of its own.
    let number = unsafe { ffi::clearance_read(sheet.as_ptr(), sheet.len(), &raw mut row) };
    assert_eq!(number, 0);
    row
}

#[test]
fn clamps_on_clear_cells_are_a_go() {
    let go = Ok(Placed::Go);
    assert_eq!(asked(DOT, [LOW, LOW, LOW, [0, 6, 8, 2]]), go);
    let beside = [[6, 2, 2, 4], [0, 2, 2, 4], LOW, [0, 6, 8, 2]];
    assert_eq!(asked(DOT, beside), go);
    let about = [LOW, [0, 3, 8, 5], [0, 2, 1, 1], [7, 2, 1, 1]];
    assert_eq!(asked(LEVEL, about), go);
    let corners = [[0, 0, 3, 3], [5, 5, 3, 3], [0, 0, 3, 3], [5, 5, 3, 3]];
    assert_eq!(asked(SLANT, corners), go);
}

#[test]
fn the_first_clamp_in_the_order_given_is_named() {
    let corner = [0, 0, 1, 1];
    let (wide, small) = ([0, 2, 8, 3], [3, 3, 1, 1]);
    assert_eq!(asked(DOT, [LOW, LOW, LOW, [1, 3, 4, 2]]), stopped(3, 2, 3));
    assert_eq!(asked(DOT, [wide, small, corner, corner]), stopped(0, 2, 2));
    assert_eq!(asked(DOT, [small, wide, corner, corner]), stopped(0, 3, 3));
    assert_eq!(asked(DOT, [corner, small, wide, wide]), stopped(1, 3, 3));
    assert_eq!(asked(DOT, [corner, corner, wide, small]), stopped(2, 2, 2));
}

#[test]
fn the_lowest_cell_comes_before_the_leftmost() {
    let across = [[0, 0, 3, 3], [5, 5, 3, 3], [1, 1, 6, 3], [3, 3, 1, 1]];
    assert_eq!(asked(SLANT, across), stopped(2, 5, 1));
    assert_eq!(asked(SLANT, [[1, 1, 3, 6]; 4]), stopped(0, 3, 3));
}

/// The first cell of a rectangle that is not C, by going through all of the map.
fn searched(cells: &[u8], [column, row, columns, rows]: [usize; 4]) -> Result<Placed, Refusal> {
    if columns == 0 || rows == 0 || column + columns > 8 || row + rows > 8 {
        return Err(Refusal::OffPlate);
    }
    let under = |x, y| (column..column + columns).contains(&x) && (row..row + rows).contains(&y);
    match (0..64).find(|&at| under(at % 8, at / 8) && cells[at] != b'C') {
        Some(at) => stopped(2, at % 8, at / 8),
        None => Ok(Placed::Go),
    }
}

#[test]
fn each_rectangle_has_the_answer_of_its_cells() {
    for sheet in [LEVEL, SLANT] {
        let (job, cells) = drawn(sheet);
        for numbers in (0..10_000).map(|at| [at % 10, at / 10 % 10, at / 100 % 10, at / 1_000]) {
            let [clear, other] = [[0, 0, 1, 1], numbers];
            let found = clamps(&job, &cells, &four([clear, clear, other, clear]));
            assert_eq!(found, searched(&cells, numbers), "{numbers:?}");
        }
    }
}

#[test]
fn any_numbers_that_leave_the_map_are_off_plate() {
    let most = usize::MAX;
    for other in [
        [1, 3, 8, 2],
        [7, 0, 2, 1],
        [0, 7, 1, 2],
        [8, 0, 1, 1],
        [0, 8, 1, 1],
        [0, 0, 0, 1],
        [0, 0, 1, 0],
        [1, 0, most, 1],
        [0, 2, 1, most],
        [most, 0, 1, 1],
        [most, most, 2, 2],
        [0, 1 << 63, 1, 1 << 63],
        [most; 4],
    ] {
        for place in 0..4 {
            let mut numbers = [LOW; 4];
            numbers[place] = other;
            assert_eq!(asked(DOT, numbers), Err(Refusal::OffPlate), "{numbers:?}");
        }
    }
}

#[test]
fn a_map_has_a_byte_for_each_cell() {
    let (job, cells) = drawn(DOT);
    for lent in [0, 1, 8, 63] {
        let found = clamps(&job, &cells[..lent], &four([LOW; 4]));
        assert_eq!(found, Err(Refusal::Space));
    }
    let longer = [&cells[..], b"?\0"].concat();
    assert_eq!(clamps(&job, &longer, &four([LOW; 4])), Ok(Placed::Go));
}

#[test]
fn each_cell_holds_a_letter() {
    let (job, drawn) = drawn(DOT);
    for at in 0..64 {
        let mut cells = drawn.clone();
        cells[at] = 0;
        let found = clamps(&job, &cells, &four([[0, 0, 1, 1]; 4]));
        assert_eq!(found, Err(Refusal::Letter), "cell {at}");
    }
    let mut cells = drawn;
    for byte in 0..=255 {
        cells[9] = byte;
        let wanted = match byte {
            b'C' => Ok(Placed::Go),
            b'I' | b'D' => stopped(0, 1, 1),
            _ => Err(Refusal::Letter),
        };
        assert_eq!(clamps(&job, &cells, &four([LOW; 4])), wanted, "{byte}");
    }
}

#[test]
fn maps_of_one_cell_and_of_the_most() {
    assert_eq!(asked(ONE, [[0, 0, 1, 1]; 4]), stopped(0, 0, 0));
    assert_eq!(asked(ONE, [[0, 0, 1, 2]; 4]), Err(Refusal::OffPlate));
    let (job, mut cells) = drawn(FAR);
    let whole = four([[0, 0, 256, 256]; 4]);
    assert_eq!(clamps(&job, &cells, &whole), Ok(Placed::Go));
    cells[254 * 256 + 255] = b'D';
    assert_eq!(clamps(&job, &cells, &whole), stopped(0, 255, 254));
    assert_eq!(
        clamps(&job, &cells, &four([[0, 0, 257, 1]; 4])),
        Err(Refusal::OffPlate)
    );
}

#[test]
fn a_stop_is_accepted_and_a_refusal_leaves_the_numbers() {
    let (_, mut cells) = drawn(DOT);
    let job = row(DOT);
    let off = [LOW, LOW, LOW, [1, 3, 8, 2]];
    assert_eq!(left(&job, &cells, [LOW; 4]), (0, [1, 0, 0, 0]));
    let found = left(&job, &cells, [LOW, LOW, LOW, [1, 3, 4, 2]]);
    assert_eq!(found, (0, [0, 3, 2, 3]));
    assert_eq!(left(&job, &cells[1..], off), (7, [6, 7, 8, 9]));
    assert_eq!(left(&job, &cells, off), (10, [6, 7, 8, 9]));
    cells[63] = b'c';
    assert_eq!(left(&job, &cells, [LOW; 4]), (11, [6, 7, 8, 9]));
    assert_eq!(left(&job[..6], &cells, off), (2, [6, 7, 8, 9]));
}

/// 2, 3, 4, 7, 10 and 11: each call has a reason less than the one before it.
#[test]
fn the_lowest_number_is_given() {
    let (legal, mut cells) = drawn(DOT);
    let mut job = Job {
        count: 0,
        m: 5,
        reach: 0,
        ..legal
    };
    let (off, on) = (four([[0, 0, 0, 0]; 4]), four([LOW; 4]));
    cells[63] = b'c';
    assert_eq!(clamps(&job, &cells[1..], &off), Err(Refusal::Edges));
    job.count = 1;
    assert_eq!(clamps(&job, &cells[1..], &off), Err(Refusal::Range));
    job.reach = legal.reach;
    assert_eq!(clamps(&job, &cells[1..], &off), Err(Refusal::Cell));
    assert_eq!(clamps(&legal, &cells[1..], &off), Err(Refusal::Space));
    assert_eq!(clamps(&legal, &cells, &off), Err(Refusal::OffPlate));
    assert_eq!(clamps(&legal, &cells, &on), Err(Refusal::Letter));
    cells[63] = b'C';
    assert_eq!(clamps(&legal, &cells, &on), Ok(Placed::Go));
}

#[test]
fn each_refusal_has_its_word() {
    let words = [Refusal::OffPlate, Refusal::Letter].map(|refusal| refusal.to_string());
    assert_eq!(words, ["refused 10 (off plate)", "refused 11 (letter)"]);
}
