//! Points to ask for, one by one or in a row.

use crate::lent::Lent;
use crate::numbers::{Numbers, COUNT, PLACE, PLACES, X, Y};
use crate::random::Random;
use crate::spoiling::odd_number;
use clearance_reference::{COORDINATE_LIMIT, EDGE_LIMIT, SPOT_LIMIT};

/// The numbers of the longest row of spots.
const ROW_MOST: usize = 2 * SPOT_LIMIT;

/// Lengths of rows: of none, of a few and about the most, odd ones too.
pub const ROW_LENGTHS: [usize; 18] = [
    0,
    1,
    2,
    3,
    4,
    5,
    6,
    7,
    8,
    ROW_MOST - 3,
    ROW_MOST - 2,
    ROW_MOST - 1,
    ROW_MOST,
    ROW_MOST + 1,
    ROW_MOST + 2,
    ROW_MOST + 3,
    ROW_MOST + 4,
    2 * ROW_MOST,
];

/// A point in range: about the outline or the plate, or anywhere.
pub fn spot_in_range(random: &mut Random, job: &Numbers) -> [i32; 2] {
    let near = random.choose(&[0, 3, 40, 1_000]);
    let about = match random.below(4) {
        0 => [job[X], job[Y]],
        1 => [0; 2].map(|_| random.between(-COORDINATE_LIMIT, COORDINATE_LIMIT)),
        2 => [0; 2].map(|_| random.choose(&[-COORDINATE_LIMIT, COORDINATE_LIMIT])),
        _ => {
            let edges = job[COUNT].clamp(1, EDGE_LIMIT as i32) as usize;
            let point = PLACES + PLACE * random.below(edges) + 2 * random.below(PLACE / 2);
            [job[point], job[point + 1]]
        }
    };
    about.map(|number| {
        let moved = number.saturating_add(random.between(-near, near));
        moved.clamp(-COORDINATE_LIMIT, COORDINATE_LIMIT)
    })
}

/// A point most often out of range, in one coordinate or in both.
pub fn odd_spot(random: &mut Random, job: &Numbers) -> [i32; 2] {
    let mut spot = spot_in_range(random, job);
    let past = random.choose(&[COORDINATE_LIMIT + 1, -COORDINATE_LIMIT - 1]);
    match random.below(4) {
        0 => spot[0] = past,
        1 => spot[1] = past,
        2 => spot[random.below(2)] = odd_number(random),
        _ => spot = spot.map(|_| odd_number(random)),
    }
    spot
}

/// A row of so many numbers in range. It goes on right behind what is lent, or
/// the guard is there, with most of its marks out of range.
pub fn spot_row(random: &mut Random, job: &Numbers, length: usize) -> Lent<i32> {
    let whole = length + random.choose(&[0, 1, 2, 9]);
    let spots = (0..whole).map(|_| spot_in_range(random, job));
    let numbers: Vec<i32> = spots.flatten().take(whole).collect();
    Lent::cut(&numbers, length, random.bits())
}

/// Puts one number of a row out of range: the first, the last, one just past the
/// most spots, or any.
pub fn spoil_row(random: &mut Random, row: &mut Lent<i32>) {
    let Some(last) = row.length().checked_sub(1) else {
        return;
    };
    let place = match random.below(4) {
        0 => 0,
        1 => last,
        2 => last.min(ROW_MOST + random.below(3)),
        _ => random.below(last + 1),
    };
    let past = COORDINATE_LIMIT + 1;
    row.part_mut()[place] = random.choose(&[past, -past, i32::MIN, i32::MAX]);
}
