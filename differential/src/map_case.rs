//! Maps: the library beside the second implementation.

use crate::fault::{number_of, Comparison, Fault};
use crate::jobs::{crowded_job, sketch_job, tuned_job};
use crate::lent::Lent;
use crate::numbers::{binding_job, describe, is_by_rows, reference_job, Numbers, COUNT, M, N};
use crate::random::Random;
use crate::rows::Row;
use crate::spoiling::spoil;
use crate::stores::{lengths_about, right_numbers};
use crate::tally::Tally;
use crate::ties::{tied_job, Tie};
use clearance::ffi;

/// How much is lent: numbers of store and bytes of map.
type Lengths = (usize, usize);

/// Maps a job with both and compares everything.
pub fn compare(job: &Numbers, lengths: Lengths, salt: u64, tally: &mut Tally) -> Result<(), Fault> {
    let Row { lent: row, job } = Row::of(job, salt);
    let given = row.clone();
    let mut store = Lent::marked(lengths.0, salt ^ 1);
    let mut wanted_store = store.clone();
    let mut cells = Lent::marked(lengths.1, salt ^ 2);
    let mut wanted_cells = cells.clone();
    let mut nodes = Lent::marked(1, salt ^ 3);
    let mut wanted_nodes = nodes.clone();
    // SAFETY: all are as long as the call is told, and apart.
    let number = unsafe {
        ffi::clearance_map(
            row.pointer(),
            row.length(),
            store.pointer_mut(),
            lengths.0,
            cells.pointer_mut(),
            lengths.1,
            nodes.pointer_mut(),
        )
    };

    let result = clearance_reference::map(
        &reference_job(&job),
        wanted_store.part_mut(),
        wanted_cells.part_mut(),
    );
    if let Ok(count) = result {
        wanted_nodes.part_mut()[0] = count;
        tally.note_drawn(is_by_rows(&job));
    }
    tally.note(number_of(&result));
    Comparison::default()
        .value("refusal", number, number_of(&result))
        .memory("nodes", &nodes, &wanted_nodes)
        .memory("store", &store, &wanted_store)
        .memory("cells", &cells, &wanted_cells)
        .memory("job", &row, &given)
        .finish(|| {
            let (numbers, bytes) = lengths;
            let long = row.length();
            let job = describe(&job);
            format!("map to {numbers} numbers and {bytes} bytes, row of {long}, {job}")
        })
}

/// What a legal job needs. A long one needs no store; 40 numbers stand for it.
fn need(job: &Numbers) -> Lengths {
    let numbers = match right_numbers(job).len() {
        0 => 40,
        need => need,
    };
    (numbers, 1 << (2 * (job[N] - job[M])))
}

/// Legal jobs with all the memory they need, or more.
pub fn drawn(random: &mut Random, tally: &mut Tally) -> Result<(), Fault> {
    let spread = match random.below(60) {
        0 => 8,
        1..=4 => 6,
        _ => 4,
    };
    let mut job = tuned_job(random, spread);
    // By rows no cell of a coarse map is inside: the reach is too short.
    if is_by_rows(&job) && random.once_in(2) {
        job[M] = (job[N] - random.between(5, 7)).max(0);
    }
    // Many edges on a fine map take long.
    if job[COUNT] > 5 {
        job[M] = job[M].max(job[N] - 5);
    }
    let (numbers, bytes) = need(&job);
    let more = (random.below(3), random.below(3));
    compare(
        &job,
        (numbers + more.0, bytes + more.1),
        random.bits(),
        tally,
    )
}

/// Legal jobs in which a cell meets a test with equality.
pub fn tied(random: &mut Random, tally: &mut Tally) -> Result<(), Fault> {
    let (job, tie) = tied_job(random);
    compare(&job, need(&job), random.bits(), tally)?;
    tie.map_or(Ok(()), |tie| compare_letter(&job, tie, tally))
}

/// The library's letter at a tie, where the map is drawn, beside what the test
/// allows there.
fn compare_letter(job: &Numbers, tie: Tie, tally: &mut Tally) -> Result<(), Fault> {
    let (numbers, bytes) = need(job);
    let (mut store, mut cells) = (vec![0; numbers], vec![0; bytes]);
    if clearance::map(&binding_job(job), &mut store, &mut cells).is_err() {
        return Ok(());
    }
    tally.note_tie(tie.test);
    let letter = char::from(cells[tie.index]);
    Comparison::default()
        .demand(tie.test.allows(letter), || {
            format!("cells[{}]: {letter} at a tie of {:?}", tie.index, tie.test)
        })
        .finish(|| describe(job))
}

/// Legal jobs of many edges.
pub fn crowded(random: &mut Random, tally: &mut Tally) -> Result<(), Fault> {
    let job = crowded_job(random);
    compare(&job, need(&job), random.bits(), tally)
}

/// Legal jobs with every length about the ones needed.
pub fn lengths(random: &mut Random, tally: &mut Tally) -> Result<(), Fault> {
    let job = tuned_job(random, 3);
    let (numbers, bytes) = need(&job);
    let any = (random.below(numbers), random.below(bytes));
    for lent in [
        (0, 0),
        (numbers, 0),
        (numbers - 1, bytes - 1),
        (numbers - 1, bytes + 1),
        (numbers, bytes - 1),
        (numbers + 1, bytes + 1),
        (any.0, bytes),
        (numbers + 50, any.1),
    ] {
        compare(&job, lent, random.bits(), tally)?;
    }
    for lent in lengths_about(numbers) {
        compare(&job, (lent, bytes), random.bits(), tally)?;
    }
    Ok(())
}

/// Illegal jobs, with any length.
pub fn illegal(random: &mut Random, tally: &mut Tally) -> Result<(), Fault> {
    let mut job = sketch_job(random, 3);
    spoil(random, &mut job);
    for lent in [(0, 0), (random.below(300), random.below(300))] {
        compare(&job, lent, random.bits(), tally)?;
    }
    Ok(())
}
