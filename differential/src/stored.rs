//! The stored cases. A folder of `stored/` has sheets and what is printed of
//! each; the library and the second implementation have to print it, byte for
//! byte.

use crate::fault::{Comparison, Fault};
use crate::numbers::{binding_job, reference_job, Numbers};
use clearance::{ffi, CELLS_MOST, JOB_NUMBERS, NODE_NUMBERS, SHEET_WRITTEN_MOST, STORE_MOST};
use clearance_reference::{listing, probe_rows, Refusal};
use std::fs;
use std::path::Path;

/// What is printed of a sheet, or the number of its refusal.
type Print = fn(&[u8]) -> Result<String, u8>;

/// Each folder, with how the library and the second implementation print.
const FOLDERS: [(&str, Print, Print); 3] = [
    ("sheets", library_sheet, reference_sheet),
    ("maps", library_map, reference_map),
    ("points", library_rows, reference_rows),
];

/// Numbers of store that are lent to a map, as many as the program lends.
const LENT_NUMBERS: usize = 16_379;

/// Holds both to all that is stored.
pub fn compare() -> Result<(), Fault> {
    let stored = Path::new(env!("CARGO_MANIFEST_DIR")).join("stored");
    let folders = fs::read_dir(&stored).map_or(0, Iterator::count);
    Comparison::default()
        .demand(folders == FOLDERS.len(), || {
            format!("{folders} folders, of which {} are asked", FOLDERS.len())
        })
        .finish(|| stored.display().to_string())?;
    for (name, library, reference) in FOLDERS {
        hold(&stored.join(name), "library", library)?;
        hold(&stored.join(name), "reference", reference)?;
    }
    Ok(())
}

/// Holds one of them to a folder: `args` has the names of the sheets in `data/`,
/// and `stdout` each name and what is printed.
fn hold(folder: &Path, who: &str, print: Print) -> Result<(), Fault> {
    let read = |name: &str| {
        let path = folder.join(name);
        fs::read(&path).unwrap_or_else(|error| panic!("{}: {error}", path.display()))
    };
    let mut printed = Vec::new();
    for name in String::from_utf8_lossy(&read("args")).lines() {
        let answer = print(&read(&format!("data/{name}"))).unwrap_or_else(listing::refused);
        printed.extend(format!("{name}\n{answer}").bytes());
    }
    let stored = read("stdout");
    let same = printed.iter().zip(&stored).take_while(|(a, b)| a == b);
    let line = 1 + same.filter(|(byte, _)| **byte == b'\n').count();
    Comparison::default()
        .demand(printed == stored, || {
            format!("the {who} prints something else from line {line} on")
        })
        .finish(|| folder.join("stdout").display().to_string())
}

fn text(bytes: &[u8]) -> String {
    String::from_utf8_lossy(bytes).into_owned()
}

/// The sheet that is written of the job read.
fn library_sheet(sheet: &[u8]) -> Result<String, u8> {
    let job = clearance::read(sheet).map_err(clearance::Refusal::number)?;
    let mut out = [0; SHEET_WRITTEN_MOST];
    let length = clearance::write(&job, &mut out).map_err(clearance::Refusal::number)?;
    Ok(text(&out[..length]))
}

fn reference_sheet(sheet: &[u8]) -> Result<String, u8> {
    let job = clearance_reference::read(sheet).map_err(Refusal::number)?;
    let mut out = [0; SHEET_WRITTEN_MOST];
    let length = clearance_reference::write(&job, &mut out).map_err(Refusal::number)?;
    Ok(text(&out[..length]))
}

/// The map, as the program prints it.
fn library_map(sheet: &[u8]) -> Result<String, u8> {
    let job = clearance::read(sheet).map_err(clearance::Refusal::number)?;
    let (mut store, mut cells) = ([0; LENT_NUMBERS], [0; CELLS_MOST]);
    clearance::map(&job, &mut store, &mut cells).map_err(clearance::Refusal::number)?;
    Ok(listing::map(&cells[..1 << (2 * (job.n - job.m))]))
}

fn reference_map(sheet: &[u8]) -> Result<String, u8> {
    let job = clearance_reference::read(sheet).map_err(Refusal::number)?;
    let (mut store, mut cells) = ([0; LENT_NUMBERS], [0; CELLS_MOST]);
    clearance_reference::map(&job, &mut store, &mut cells).map_err(Refusal::number)?;
    Ok(listing::map(&cells[..1 << (2 * (job.n - job.m))]))
}

/// The answers to rows of spots, with replies and stores that suit and that do
/// not; through the C functions, which take any of them.
fn library_rows(sheet: &[u8]) -> Result<String, u8> {
    let mut job = [0; JOB_NUMBERS];
    // SAFETY: a slice, and a whole row to write.
    let number = unsafe { ffi::clearance_read(sheet.as_ptr(), sheet.len(), &raw mut job) };
    if number != 0 {
        return Err(number);
    }
    let ask = |spots: &[i32], store: &[i32], reply: &mut [i64]| {
        // SAFETY: four slices with their lengths; the reply is apart from the others.
        unsafe {
            ffi::clearance_points(
                job.as_ptr(),
                job.len(),
                spots.as_ptr(),
                spots.len(),
                store.as_ptr(),
                store.len(),
                reply.as_mut_ptr(),
                reply.len(),
            )
        }
    };
    let store = library_store(&job);
    Ok(probe_rows::battery_of(&reference_job(&job), &store, ask))
}

/// The store that the library's map leaves; a refused one leaves none.
fn library_store(job: &Numbers) -> Vec<i32> {
    let (mut store, mut cells) = (vec![0; STORE_MOST], [0; CELLS_MOST]);
    let nodes = clearance::map(&binding_job(job), &mut store, &mut cells).unwrap_or(0);
    store.truncate(NODE_NUMBERS * nodes);
    store
}

fn reference_rows(sheet: &[u8]) -> Result<String, u8> {
    let job = clearance_reference::read(sheet).map_err(Refusal::number)?;
    Ok(probe_rows::battery(&job))
}
