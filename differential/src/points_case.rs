//! Several points in one call: the library beside the second implementation.

use crate::fault::{number_of, Comparison, Fault};
use crate::jobs::{crowded_job, sketch_job, tuned_job};
use crate::lent::Lent;
use crate::numbers::{binding_job, describe, reference_job, Numbers};
use crate::random::Random;
use crate::repeats::repeated_job;
use crate::rows::Row;
use crate::spoiling::spoil;
use crate::spots::{spoil_row, spot_row, ROW_LENGTHS};
use crate::stores::{
    boxless_store, changed_store, others_store, right_numbers, right_store, short_store,
};
use crate::tally::Tally;
use clearance::{ffi, NEAREST_NUMBERS};

/// What is lent to a call beside the job: the rows, and how long the reply is.
pub struct Asked {
    pub spots: Lent<i32>,
    pub store: Lent<i32>,
    pub reply: usize,
}

/// Asks both for all the spots and compares everything.
pub fn compare(job: &Numbers, asked: &Asked, salt: u64, tally: &mut Tally) -> Result<(), Fault> {
    let Row { lent: row, job } = Row::of(job, salt);
    let Asked { spots, store, .. } = asked;
    let (given_row, given_spots, given_store) = (row.clone(), spots.clone(), store.clone());
    let mut reply = Lent::marked(asked.reply, salt ^ 1);
    let mut wanted = reply.clone();
    // SAFETY: all are as long as the call is told, and apart.
    let number = unsafe {
        ffi::clearance_points(
            row.pointer(),
            row.length(),
            spots.pointer(),
            spots.length(),
            store.pointer(),
            store.length(),
            reply.pointer_mut(),
            reply.length(),
        )
    };

    let result = clearance_reference::points(
        &reference_job(&job),
        given_spots.part(),
        given_store.part(),
        wanted.part_mut(),
    );
    tally.note(number_of(&result));
    let described = || {
        let (numbers, long) = (asked.reply, row.length());
        format!(
            "{}, reply of {numbers}, row of {long}, {}",
            asked.describe(),
            describe(&job)
        )
    };
    Comparison::default()
        .value("refusal", number, number_of(&result))
        .memory("reply", &reply, &wanted)
        .memory("spots", spots, &given_spots)
        .memory("store", store, &given_store)
        .memory("job", &row, &given_row)
        .finish(described)?;
    if number != 0 {
        return Ok(());
    }
    let spots = asked.spots.length() / 2;
    [0, (salt % spots as u64) as usize]
        .into_iter()
        .try_for_each(|index| compare_alone(&job, asked, &reply, index))
}

/// The answer of one of the spots beside the library's for it alone.
fn compare_alone(
    job: &Numbers,
    asked: &Asked,
    reply: &Lent<i64>,
    index: usize,
) -> Result<(), Fault> {
    let [x, y] = [0, 1].map(|c| asked.spots.part()[2 * index + c]);
    let alone = clearance::point(&binding_job(job), x, y, asked.store.part());
    let alone = alone.map(|nearest| [nearest.lo, nearest.hi, nearest.edge as i64]);
    let found = &reply.part()[NEAREST_NUMBERS * index..][..NEAREST_NUMBERS];
    Comparison::default()
        .demand(alone.is_ok_and(|alone| alone == found), || {
            format!("spot {index}: {found:?} in a row, {alone:?} alone")
        })
        .finish(|| format!("{}, {}", asked.describe(), describe(job)))
}

impl Asked {
    /// With a reply that has just enough numbers.
    pub fn enough(spots: Lent<i32>, store: Lent<i32>) -> Asked {
        let reply = need(spots.length());
        Asked {
            spots,
            store,
            reply,
        }
    }

    /// In few words: the first of its spots, and how many numbers there are.
    fn describe(&self) -> String {
        let (spots, numbers) = (self.spots.part(), self.store.length());
        let first = &spots[..spots.len().min(8)];
        format!(
            "points {first:?}, {} numbers, of a store of {numbers}",
            spots.len()
        )
    }
}

/// The numbers of reply for a row of spots.
fn need(length: usize) -> usize {
    NEAREST_NUMBERS * (length / 2)
}

/// Any length of a reply about the one that is needed.
fn about(random: &mut Random, need: usize) -> usize {
    let less = need.saturating_sub(1 + random.below(4));
    let more = need + random.choose(&[1, 2, 3, 50]);
    let any = random.below(need + 1);
    random.choose(&[0, less, less, need, more, any])
}

/// Spots in range, few or many, asked of the right store.
pub fn answered(random: &mut Random, tally: &mut Tally) -> Result<(), Fault> {
    let job = match random.below(8) {
        0 => crowded_job(random),
        1 => repeated_job(random).0,
        _ => tuned_job(random, 8),
    };
    let right = right_numbers(&job);
    for most in [4, 4, clearance::SPOTS_MOST] {
        let length = 2 + 2 * random.below(most);
        let mut asked = Asked::enough(spot_row(random, &job, length), right_store(random, &right));
        asked.reply += random.choose(&[0, 1, 2, 3, 50]);
        compare(&job, &asked, random.bits(), tally)?;
    }
    Ok(())
}

/// Rows of no spot, of a few and about the most, odd ones too, each with a reply
/// that is just enough and with one about it.
pub fn lengths(random: &mut Random, tally: &mut Tally) -> Result<(), Fault> {
    let job = sketch_job(random, 8);
    let right = right_numbers(&job);
    for length in ROW_LENGTHS {
        let mut asked = Asked::enough(spot_row(random, &job, length), right_store(random, &right));
        compare(&job, &asked, random.bits(), tally)?;
        asked.reply = about(random, asked.reply);
        compare(&job, &asked, random.bits(), tally)?;
    }
    Ok(())
}

/// Spots asked of stores that are short, changed or another job's, with replies
/// that are enough and some that are not.
pub fn stores(random: &mut Random, tally: &mut Tally) -> Result<(), Fault> {
    let job = tuned_job(random, 8);
    let right = right_numbers(&job);
    let enough = random.once_in(2);
    for store in [
        right_store(random, &right),
        short_store(random, &right),
        changed_store(random, &right),
        changed_store(random, &right),
        boxless_store(random, &right, enough),
        others_store(random, &job),
    ] {
        let length = 2 + 2 * random.below(4);
        let mut asked = Asked::enough(spot_row(random, &job, length), store);
        if random.once_in(4) {
            asked.reply = about(random, asked.reply);
        }
        compare(&job, &asked, random.bits(), tally)?;
    }
    Ok(())
}

/// Anything wrong with the job, the row, the store and the reply, or with several
/// of them: then it shows which refusal comes first.
pub fn illegal(random: &mut Random, tally: &mut Tally) -> Result<(), Fault> {
    let legal = sketch_job(random, 8);
    let right = right_numbers(&legal);
    let mut spoiled = legal;
    spoil(random, &mut spoiled);
    for job in [legal, legal, spoiled, spoiled] {
        let asked = odd_call(random, &legal, &right);
        compare(&job, &asked, random.bits(), tally)?;
    }
    Ok(())
}

/// Each of the row, the store and the reply right or not.
fn odd_call(random: &mut Random, job: &Numbers, right: &[i32]) -> Asked {
    let few = 2 + 2 * random.below(4);
    let odd = random.choose(&ROW_LENGTHS);
    let length = random.choose(&[few, few, odd]);
    let mut spots = spot_row(random, job, length);
    if random.once_in(3) {
        spoil_row(random, &mut spots);
    }
    let store = match random.below(4) {
        0 => short_store(random, right),
        1 => changed_store(random, right),
        _ => right_store(random, right),
    };
    let mut asked = Asked::enough(spots, store);
    if random.once_in(2) {
        asked.reply = about(random, asked.reply);
    }
    asked
}
