//! Stores to ask a point of: the right one and others.

use crate::lent::Lent;
use crate::numbers::{edge_at, lay, reference_job, Numbers, COUNT, GRAIN, MARKS, PLACE, PLACES};
use crate::random::Random;
use clearance::NODE_NUMBERS;
use clearance_reference::{trees, Edge};

/// Numbers of a node without its upright box.
const WITHOUT_BOX: usize = 7;

/// The numbers of a job's trees, none if it has no trees.
pub fn right_numbers(job: &Numbers) -> Vec<i32> {
    let grown = trees::grow(&reference_job(job));
    grown.map_or(Vec::new(), |trees| trees::store_numbers(&trees))
}

/// The right numbers, alone or with others behind them.
pub fn right_store(random: &mut Random, right: &[i32]) -> Lent<i32> {
    let more = random.choose(&[0, 0, 1, NODE_NUMBERS - 1, NODE_NUMBERS, 100]);
    store_of_length(random, right, right.len() + more)
}

/// So many numbers: the right ones, cut short with the rest right behind what is
/// lent, or with others behind them.
pub fn store_of_length(random: &mut Random, right: &[i32], length: usize) -> Lent<i32> {
    let mut numbers = right.to_vec();
    numbers.resize_with(right.len().max(length), || random.number());
    Lent::cut(&numbers, length, random.bits())
}

/// Lengths about the one that is needed.
pub fn lengths_about(need: usize) -> [usize; 10] {
    [
        0,
        need / NODE_NUMBERS * WITHOUT_BOX,
        need.saturating_sub(NODE_NUMBERS + 1),
        need.saturating_sub(NODE_NUMBERS),
        need.saturating_sub(NODE_NUMBERS - 1),
        need.saturating_sub(1),
        need,
        need + 1,
        need + NODE_NUMBERS - 1,
        need + NODE_NUMBERS,
    ]
}

/// The right numbers cut short, with the rest right behind what is lent.
pub fn short_store(random: &mut Random, right: &[i32]) -> Lent<i32> {
    let need = right.len();
    let length = match random.below(5) {
        0 => 0,
        1 => random.below(need.max(1)),
        2 => need.saturating_sub(NODE_NUMBERS),
        3 => need / NODE_NUMBERS * WITHOUT_BOX,
        _ => need.saturating_sub(1),
    };
    store_of_length(random, right, length)
}

/// Where the numbers of the first, the middle and the last node stand.
pub fn places_of_three_nodes(need: usize) -> impl Iterator<Item = usize> {
    let nodes = need / NODE_NUMBERS;
    let three = [0, nodes / 2, nodes.saturating_sub(1)].into_iter();
    three.flat_map(|node| (0..NODE_NUMBERS).map(move |place| NODE_NUMBERS * node + place))
}

/// The numbers but for the one at a place.
pub fn store_with_change(random: &mut Random, numbers: &[i32], place: usize) -> Lent<i32> {
    let mut store = Lent::holding(numbers, random.bits());
    let any = random.number() | 1;
    let change = random.choose(&[1, -1, i32::MIN, any]);
    if let Some(number) = store.part_mut().get_mut(place) {
        *number = number.wrapping_add(change);
    }
    store
}

/// The right numbers but for one, in the trees or past them.
pub fn changed_store(random: &mut Random, right: &[i32]) -> Lent<i32> {
    let mut numbers = right.to_vec();
    numbers.extend((0..random.below(3)).map(|_| random.number()));
    let place = match random.below(5) {
        0 | 1 => {
            let places: Vec<usize> = places_of_three_nodes(right.len()).collect();
            random.choose(&places)
        }
        2 => right.len().saturating_sub(1),
        3 => numbers.len().saturating_sub(1),
        _ => random.below(numbers.len().max(1)),
    };
    store_with_change(random, &numbers, place)
}

/// The right nodes without their upright boxes, alone or with so many numbers
/// behind them that the store is long enough.
pub fn boxless_store(random: &mut Random, right: &[i32], enough: bool) -> Lent<i32> {
    let nodes = right.chunks(NODE_NUMBERS);
    let boxless = nodes.flat_map(|node| &node[..WITHOUT_BOX]).copied();
    let numbers: Vec<i32> = boxless.collect();
    let length = if enough {
        right.len() + random.below(3)
    } else {
        numbers.len()
    };
    store_of_length(random, &numbers, length)
}

/// A line as the cubic whose place it has, or a cubic cut to a line's numbers.
fn other_kind(edge: Edge) -> Edge {
    match edge {
        Edge::Cubic([x0, y0, x1, y1, ..]) => Edge::Line([x0, y0, x1, y1]),
        Edge::Line(_) => Edge::Cubic(edge.place()),
    }
}

/// The store of a job that is like this one, or zeros, or marks.
pub fn others_store(random: &mut Random, job: &Numbers) -> Lent<i32> {
    let length = right_numbers(job).len();
    let mut other = *job;
    match random.below(7) {
        0 => return Lent::marked(length, random.bits()),
        1 => return Lent::holding(&vec![0; length], random.bits()),
        2 => {
            let place = PLACES + random.below(PLACE);
            other[place] += random.choose(&[1, -1]);
        }
        3 => other[GRAIN] += 1,
        // The first edge as the last.
        4 => {
            let count = job[COUNT].clamp(1, 64) as usize;
            other[PLACES..PLACES + PLACE * count].rotate_left(PLACE);
            other[MARKS..MARKS + count].rotate_left(1);
        }
        5 => lay(&mut other, 0, &other_kind(edge_at(job, 0))),
        // Its plate and reach, which no tree depends on.
        _ => other[..GRAIN].copy_from_slice(&[5, -5, 6, 6, 77]),
    }
    Lent::holding(&right_numbers(&other), random.bits())
}
