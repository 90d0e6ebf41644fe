//! A second fixed battery of questions about one job, rows of spots: alone and
//! together, rows that are no sheaf, and a reply or store that does not suit.
//! Another implementation is asked the same, and is compared with the text.

use crate::entries::{points, reply_length};
use crate::job::Job;
use crate::listing;
use crate::probe::{changed, lengths, spots, SPOT};
use crate::refusal::Refusal;
use crate::trees::own_store;

/// Every number of a reply beforehand.
const BEFORE: i64 = 7;
/// So many spots, the first, are in range if the job is legal.
const IN_RANGE: usize = 8;
/// A reply that is one number short for two spots.
const SHORT_REPLY: usize = 5;

/// The answers.
pub fn battery(job: &Job) -> String {
    let ask = |spots: &[i32], store: &[i32], reply: &mut [i64]| {
        points(job, spots, store, reply).map_or_else(Refusal::number, |()| 0)
    };
    battery_of(job, &own_store(job), ask)
}

/// The answers of any implementation: first of the job's own store, then of
/// others. What asks is lent a row of spots, a store and a reply, and gives the
/// number of the refusal, or 0.
pub fn battery_of(
    job: &Job,
    store: &[i32],
    ask: impl Fn(&[i32], &[i32], &mut [i64]) -> u8,
) -> String {
    let answer = |row: &[i32], store: &[i32], length| {
        let mut reply = vec![BEFORE; length];
        match ask(row, store, &mut reply) {
            0 => accepted(&reply, reply_length(row)),
            number => refused(number, &reply),
        }
    };
    let twice = [SPOT; 2].concat();
    let mut text = String::new();
    for row in rows(job) {
        text += &answer(&row, store, longer_reply(&row));
    }
    text += &answer(&twice, store, SHORT_REPLY);
    for store in stores(store) {
        text += &answer(&twice, &store, longer_reply(&twice));
    }
    text
}

/// One number more than the spots need, to see that it is kept.
fn longer_reply(row: &[i32]) -> usize {
    reply_length(row) + 1
}

/// Each spot alone; two of them in both orders, and one twice; eight and all ten;
/// the most spots, and one more; then none, an odd count, and a row with several
/// faults.
fn rows(job: &Job) -> Vec<Vec<i32>> {
    let all = spots(job);
    let some = &all[..IN_RANGE];
    let control = all[3];
    let around = |count| some.iter().copied().cycle().take(count).flatten().collect();
    let mut rows: Vec<Vec<i32>> = all.iter().map(|spot| spot.to_vec()).collect();
    rows.extend([
        [SPOT, control].concat(),
        [control, SPOT].concat(),
        [SPOT; 2].concat(),
        some.concat(),
        all.concat(),
        around(256),
        around(257),
        Vec::new(),
        some.as_flattened()[..2 * IN_RANGE - 1].to_vec(),
        far_last(),
    ]);
    rows
}

/// Too many numbers, an odd count of them, and only the last out of its range.
fn far_last() -> Vec<i32> {
    let mut row = vec![0; 514];
    row.push(2_000_000);
    row
}

/// One number more, one less, none; then the last number changed.
fn stores(store: &[i32]) -> impl Iterator<Item = Vec<i32>> {
    let last = store.len().saturating_sub(1);
    lengths(store).into_iter().chain([changed(store, last)])
}

/// A line a spot, but where the spots go around and the reply with them; and the
/// first number behind the reply.
fn accepted(reply: &[i64], written: usize) -> String {
    let (replies, _) = reply[..written].as_chunks::<3>();
    let mut text = String::new();
    for (index, numbers) in replies.iter().enumerate() {
        if index < IN_RANGE || *numbers != replies[index - IN_RANGE] {
            text += &listing::points(numbers);
        }
    }
    text + &format!("(past {})\n", reply[written])
}

/// The refusal, and how many numbers of the reply were written nevertheless.
fn refused(number: u8, reply: &[i64]) -> String {
    let changed = reply.iter().filter(|&&number| number != BEFORE).count();
    format!("{}(changed {changed})\n", listing::refused(number))
}

#[cfg(test)]
mod tests {
    use super::{accepted, listing, refused};

    /// Only a reply that does not go around with its spots has a line of its own.
    #[test]
    fn replies_past_the_eighth() {
        let around: Vec<i64> = (0..48).map(|index| index % 24).collect();
        let eight = listing::points(&around[..24]);
        let accept = |reply: &[i64]| accepted(&[reply, &[7]].concat(), reply.len());
        assert_eq!(accept(&around[..24]), eight.clone() + "(past 7)\n");
        assert_eq!(accept(&around), eight.clone() + "(past 7)\n");
        for place in 24..48 {
            let mut other = around.clone();
            other[place] += 1;
            let spot = place / 3 * 3;
            let line = listing::points(&other[spot..spot + 3]);
            assert_eq!(accept(&other), format!("{eight}{line}(past 7)\n"));
        }
    }

    #[test]
    fn numbers_written_in_spite_of_a_refusal() {
        let line = refused(9, &[7, 6_400, 7, 0, -7]);
        assert_eq!(line, "(refused 9)\n(changed 3)\n");
    }
}
