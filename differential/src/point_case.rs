//! Points: the library beside the second implementation.

use crate::fault::{number_of, Comparison, Fault};
use crate::jobs::{crowded_job, sketch_job, tuned_job};
use crate::lent::Lent;
use crate::numbers::{binding_job, describe, reference_job, Numbers};
use crate::random::Random;
use crate::repeats::{attaining_edges, repeated_job};
use crate::rows::Row;
use crate::spoiling::spoil;
use crate::spots::{odd_spot, spot_in_range};
use crate::stores::{
    boxless_store, changed_store, lengths_about, others_store, places_of_three_nodes,
    right_numbers, right_store, short_store, store_of_length, store_with_change,
};
use crate::tally::Tally;
use clearance::ffi;

/// Asks both for a point and compares everything.
pub fn compare(
    job: &Numbers,
    [x, y]: [i32; 2],
    store: &Lent<i32>,
    salt: u64,
    tally: &mut Tally,
) -> Result<(), Fault> {
    let Row { lent: row, job } = Row::of(job, salt);
    let given_row = row.clone();
    let given_store = store.clone();
    let mut nearest = Lent::marked(3, salt ^ 1);
    let mut wanted = nearest.clone();
    // SAFETY: all are as long as the call is told, and apart.
    let number = unsafe {
        ffi::clearance_point(
            row.pointer(),
            row.length(),
            x,
            y,
            store.pointer(),
            store.length(),
            nearest.pointer_mut(),
        )
    };

    let result = clearance_reference::point(&reference_job(&job), x, y, given_store.part());
    if let Ok(n) = &result {
        let numbers = [n.lo, n.hi, n.edge as i64];
        wanted.part_mut().copy_from_slice(&numbers);
    }
    tally.note(number_of(&result));
    Comparison::default()
        .value("refusal", number, number_of(&result))
        .memory("nearest", &nearest, &wanted)
        .memory("store", store, &given_store)
        .memory("job", &row, &given_row)
        .finish(|| {
            let numbers = given_store.length();
            let (long, job) = (row.length(), describe(&job));
            format!("point {x} {y} of a store of {numbers}, row of {long}, {job}")
        })
}

/// Points in range, asked of the right store. Many edges leave much to skip.
pub fn answered(random: &mut Random, tally: &mut Tally) -> Result<(), Fault> {
    let job = match random.below(8) {
        0 => crowded_job(random),
        _ => tuned_job(random, 8),
    };
    let right = right_numbers(&job);
    for _ in 0..4 {
        let spot = spot_in_range(random, &job);
        let store = right_store(random, &right);
        compare(&job, spot, &store, random.bits(), tally)?;
    }
    Ok(())
}

/// Points that several edges are equally near, most of them.
pub fn tied(random: &mut Random, tally: &mut Tally) -> Result<(), Fault> {
    let (job, spots) = repeated_job(random);
    let right = right_numbers(&job);
    for spot in spots {
        let store = right_store(random, &right);
        compare(&job, spot, &store, random.bits(), tally)?;
        compare_edge(&job, spot, &right, tally)?;
    }
    Ok(())
}

/// The library's edge beside the first that attains hi by way of all leaves, so
/// that a lookup that skips is held to one that does not.
fn compare_edge(
    job: &Numbers,
    [x, y]: [i32; 2],
    right: &[i32],
    tally: &mut Tally,
) -> Result<(), Fault> {
    let Ok(nearest) = clearance::point(&binding_job(job), x, y, right) else {
        return Ok(());
    };
    let edges = attaining_edges(job, [x, y]);
    if edges.len() > 1 {
        tally.note_shared();
    }
    Comparison::default()
        .demand(edges.first() == Some(&nearest.edge), || {
            format!("edge: {} of {edges:?}, which attain hi", nearest.edge)
        })
        .finish(|| format!("point {x} {y} of {}", describe(job)))
}

/// Points asked of stores that are short, changed or another job's.
pub fn stores(random: &mut Random, tally: &mut Tally) -> Result<(), Fault> {
    let job = tuned_job(random, 8);
    let right = right_numbers(&job);
    let spot = spot_in_range(random, &job);
    let enough = random.once_in(2);
    for store in [
        right_store(random, &right),
        short_store(random, &right),
        changed_store(random, &right),
        changed_store(random, &right),
        boxless_store(random, &right, enough),
        others_store(random, &job),
    ] {
        compare(&job, spot, &store, random.bits(), tally)?;
    }
    Ok(())
}

/// Points asked of stores of every length about the one needed, then with each
/// number of three nodes changed in turn, then without the upright boxes. A long
/// job has no store and is asked about once.
pub fn numbers(random: &mut Random, tally: &mut Tally) -> Result<(), Fault> {
    let job = sketch_job(random, 8);
    let right = right_numbers(&job);
    let spot = spot_in_range(random, &job);
    if right.is_empty() {
        return compare(
            &job,
            spot,
            &right_store(random, &right),
            random.bits(),
            tally,
        );
    }
    for length in lengths_about(right.len()) {
        let store = store_of_length(random, &right, length);
        compare(&job, spot, &store, random.bits(), tally)?;
    }
    for place in places_of_three_nodes(right.len()) {
        let store = store_with_change(random, &right, place);
        compare(&job, spot, &store, random.bits(), tally)?;
    }
    for enough in [false, true] {
        let store = boxless_store(random, &right, enough);
        compare(&job, spot, &store, random.bits(), tally)?;
    }
    Ok(())
}

/// Points out of range and illegal jobs, with the right store and with others.
pub fn illegal(random: &mut Random, tally: &mut Tally) -> Result<(), Fault> {
    let legal = sketch_job(random, 8);
    let right = right_numbers(&legal);
    let mut spoiled = legal;
    spoil(random, &mut spoiled);
    let jobs_and_spots = [
        (legal, odd_spot(random, &legal)),
        (spoiled, spot_in_range(random, &legal)),
        (spoiled, odd_spot(random, &legal)),
    ];
    for (job, spot) in jobs_and_spots {
        let store = match random.below(3) {
            0 => short_store(random, &right),
            1 => changed_store(random, &right),
            _ => right_store(random, &right),
        };
        compare(&job, spot, &store, random.bits(), tally)?;
    }
    Ok(())
}
