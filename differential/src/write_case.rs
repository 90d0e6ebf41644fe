//! Writing: the library beside the second implementation.

use crate::fault::{number_of, Comparison, Fault};
use crate::jobs::sketch_job;
use crate::lent::Lent;
use crate::numbers::{describe, reference_job, Numbers};
use crate::random::Random;
use crate::rows::Row;
use crate::spoiling::spoil;
use crate::tally::Tally;
use clearance::ffi;

/// Writes a job's sheet with both and compares everything.
pub fn compare(job: &Numbers, length: usize, salt: u64, tally: &mut Tally) -> Result<(), Fault> {
    let Row { lent: row, job } = Row::of(job, salt);
    let given = row.clone();
    let mut out = Lent::marked(length, salt ^ 1);
    let mut wanted_out = out.clone();
    let mut bytes = Lent::marked(1, salt ^ 2);
    let mut wanted_bytes = bytes.clone();
    // SAFETY: all are as long as the call is told, and apart.
    let number = unsafe {
        ffi::clearance_write(
            row.pointer(),
            row.length(),
            out.pointer_mut(),
            length,
            bytes.pointer_mut(),
        )
    };

    let result = clearance_reference::write(&reference_job(&job), wanted_out.part_mut());
    if let Ok(written) = result {
        wanted_bytes.part_mut()[0] = written;
    }
    tally.note(number_of(&result));
    Comparison::default()
        .value("refusal", number, number_of(&result))
        .memory("bytes", &bytes, &wanted_bytes)
        .memory("out", &out, &wanted_out)
        .memory("job", &row, &given)
        .finish(|| {
            let numbers = row.length();
            format!(
                "write to {length} bytes, row of {numbers}, {}",
                describe(&job)
            )
        })
}

/// Legal jobs, with every length about the one needed.
pub fn legal(random: &mut Random, tally: &mut Tally) -> Result<(), Fault> {
    let job = sketch_job(random, 8);
    let mut text = [0; clearance::SHEET_WRITTEN_MOST];
    let need = clearance_reference::write(&reference_job(&job), &mut text).unwrap_or(0);
    let any = random.below(need + 100);
    for length in [0, 1, need - 1, need, need + 1, any, text.len()] {
        compare(&job, length, random.bits(), tally)?;
    }
    Ok(())
}

/// Illegal jobs, with any length.
pub fn illegal(random: &mut Random, tally: &mut Tally) -> Result<(), Fault> {
    let mut job = sketch_job(random, 8);
    spoil(random, &mut job);
    for length in [0, random.below(200), clearance::SHEET_WRITTEN_MOST] {
        compare(&job, length, random.bits(), tally)?;
    }
    Ok(())
}
