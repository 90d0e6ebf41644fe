//! The safe calls: their results beside those of the second implementation.

use crate::fault::{number_of, Comparison, Fault};
use crate::jobs::sketch_job;
use crate::numbers::{binding_job, describe, is_by_rows, numbers_of, reference_job, Numbers};
use crate::random::Random;
use crate::sheets::odd_sheet;
use crate::spoiling::spoil;
use crate::spots::{odd_spot, spot_in_range};
use crate::tally::Tally;
use clearance_reference as reference;

/// A result with the refusal as its number.
fn plain<T>(result: Result<T, clearance::Refusal>) -> Result<T, u8> {
    result.map_err(|refusal| refusal.number())
}

/// The same of the second implementation, with a note of its number.
fn wanted<T>(result: Result<T, reference::Refusal>, tally: &mut Tally) -> Result<T, u8> {
    tally.note(number_of(&result));
    result.map_err(|refusal| refusal.number())
}

/// All five safe calls.
pub fn all(random: &mut Random, tally: &mut Tally) -> Result<(), Fault> {
    let sheet = odd_sheet(random);
    let got = plain(clearance::read(&sheet));
    let want = wanted(reference::read(&sheet), tally);
    let want = want.map(|job| binding_job(&numbers_of(&job)));
    Comparison::default()
        .value("safe read", got, want)
        .finish(|| format!("read of \"{}\"", sheet.escape_ascii()))?;

    let mut job = sketch_job(random, 3);
    if random.once_in(4) {
        spoil(random, &mut job);
    }
    compare_write(random, &job, tally)?;
    let mut store = compare_map(random, &job, tally)?;
    if random.once_in(4) {
        store[random.below(clearance::NODE_NUMBERS)] ^= 1;
    }
    compare_point(random, &job, &store, tally)?;
    compare_points(random, &job, &store, tally)
}

fn compare_write(random: &mut Random, job: &Numbers, tally: &mut Tally) -> Result<(), Fault> {
    let mut out = vec![0; random.choose(&[100, clearance::SHEET_WRITTEN_MOST])];
    let mut wanted_out = out.clone();
    let got = plain(clearance::write(&binding_job(job), &mut out));
    let want = wanted(
        reference::write(&reference_job(job), &mut wanted_out),
        tally,
    );
    Comparison::default()
        .value("safe write", got, want)
        .slice("out", &out, &wanted_out)
        .finish(|| describe(job))
}

/// Gives the store that the map call left.
fn compare_map(random: &mut Random, job: &Numbers, tally: &mut Tally) -> Result<Vec<i32>, Fault> {
    let mut store = vec![0; random.choose(&[100, 10_000])];
    let mut cells = vec![0; 64];
    let (mut wanted_store, mut wanted_cells) = (store.clone(), cells.clone());
    let got = plain(clearance::map(&binding_job(job), &mut store, &mut cells));
    let want = wanted(
        reference::map(&reference_job(job), &mut wanted_store, &mut wanted_cells),
        tally,
    );
    if want.is_ok() {
        tally.note_drawn(is_by_rows(job));
    }
    Comparison::default()
        .value("safe map", got, want)
        .slice("store", &store, &wanted_store)
        .slice("cells", &cells, &wanted_cells)
        .finish(|| describe(job))?;
    Ok(store)
}

fn compare_point(
    random: &mut Random,
    job: &Numbers,
    store: &[i32],
    tally: &mut Tally,
) -> Result<(), Fault> {
    let [x, y] = match random.below(4) {
        0 => odd_spot(random, job),
        _ => spot_in_range(random, job),
    };
    let got = plain(clearance::point(&binding_job(job), x, y, store));
    let want = wanted(reference::point(&reference_job(job), x, y, store), tally);
    Comparison::default()
        .value(
            "safe point",
            got.map(|nearest| (nearest.lo, nearest.hi, nearest.edge)),
            want.map(|nearest| (nearest.lo, nearest.hi, nearest.edge)),
        )
        .finish(|| format!("point {x} {y} of {}", describe(job)))
}

fn compare_points(
    random: &mut Random,
    job: &Numbers,
    store: &[i32],
    tally: &mut Tally,
) -> Result<(), Fault> {
    let most = clearance::SPOTS_MOST;
    let count = random.choose(&[1, 2, 3, 7, most, 0, most + 1]);
    let mut spots: Vec<[i32; 2]> = (0..count).map(|_| spot_in_range(random, job)).collect();
    if let Some(last) = spots.last_mut().filter(|_| random.once_in(6)) {
        *last = odd_spot(random, job);
    }
    let got = plain(clearance::points(&binding_job(job), &spots, store));
    let mut reply = vec![0; clearance::NEAREST_NUMBERS * most];
    let result = reference::points(&reference_job(job), spots.as_flattened(), store, &mut reply);
    let want = wanted(result, tally).map(|()| reply[..clearance::NEAREST_NUMBERS * count].to_vec());
    let numbers = |nearest: clearance::Nearest| [nearest.lo, nearest.hi, nearest.edge as i64];
    Comparison::default()
        .value(
            "safe points",
            got.map(|found| found.into_iter().flat_map(numbers).collect()),
            want,
        )
        .finish(|| format!("points {spots:?} of {}", describe(job)))
}
