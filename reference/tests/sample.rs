//! The sample sheet and its map, byte for byte.

mod common;

use clearance_reference::{listing, map, read, write};
use common::{sample_job, SAMPLE_MAP, SAMPLE_SHEET};

#[test]
fn the_sample_sheet_is_read() {
    assert_eq!(read(SAMPLE_SHEET.as_bytes()), Ok(sample_job()));
}

#[test]
fn the_sample_sheet_is_written() {
    let mut lent = [0; 8_192];
    let length = write(&sample_job(), &mut lent).unwrap();
    assert_eq!(&lent[..length], SAMPLE_SHEET.as_bytes());
}

#[test]
fn the_sample_map_is_drawn() {
    let mut store = [-1; 12];
    let mut cells = [b'?'; 66];
    assert_eq!(map(&sample_job(), &mut store, &mut cells), Ok(1));
    assert_eq!(store, [0, 0, 0, 0, 0, 0, 1, 0, 0, 0, 0, -1]);
    assert_eq!(listing::map(&cells[..64]), SAMPLE_MAP);
    assert_eq!(cells[64..], *b"??");
}
