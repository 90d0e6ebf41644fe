//! Finished maps against the definition of exploring, worked out anew for each
//! smallest cell: from the numbers of the store, by corners instead of closed
//! formulas, and down the chain of larger cells that hold it. Then single strips
//! where a test comes out equal, and a fine unit to either side of that.

mod common;

use clearance_reference::explore::{strip_answer, Answer, Cell};
use clearance_reference::strips::Strip;
use clearance_reference::trees::NUMBERS_A_NODE;
use clearance_reference::Job;
use common::jobs::random_job;
use common::random::Xorshift;
use common::{finished, sample_job};

/// How often each comparison decided or came out equal.
#[derive(Default, Debug)]
struct Notes {
    inside: usize,
    gap: usize,
    slant: usize,
    inside_ties: usize,
    gap_ties: usize,
    /// Ties across a slant, by whether the axis's length is a whole number.
    whole_slant_ties: usize,
    other_slant_ties: usize,
    /// Strips of a box alone, not a point, that neither hold nor clear the cell.
    box_alone: usize,
}

/// A square in fine units: its low and high ends in x and y.
struct Square {
    low: [i128; 2],
    high: [i128; 2],
}

impl Square {
    /// The block of `size` cells a side that holds a smallest cell.
    fn around(job: &Job, column: usize, row: usize, size: usize) -> Square {
        let side = 16_i128 << job.m;
        let low = [(job.x, column), (job.y, row)]
            .map(|(corner, index)| 16 * i128::from(corner) + side * (index / size * size) as i128);
        let high = low.map(|end| end + side * size as i128);
        Square { low, high }
    }

    fn corners(&self) -> [[i128; 2]; 4] {
        let ([x0, y0], [x1, y1]) = (self.low, self.high);
        [[x0, y0], [x1, y0], [x0, y1], [x1, y1]]
    }
}

/// A node's strip, as the store has it.
struct Node {
    centre: [i128; 2],
    axis: [i128; 2],
    half_box: [i128; 2],
}

impl Node {
    fn of(store: &[i32]) -> Node {
        let pair = |first: usize| [store[first].into(), store[first + 1].into()];
        Node {
            centre: pair(0),
            axis: pair(2),
            half_box: pair(4),
        }
    }

    /// The upright box around the strip.
    fn upright_box(&self) -> Square {
        let half = [0, 1].map(|c| self.axis[c].abs() + self.half_box[c]);
        Square {
            low: [0, 1].map(|c| self.centre[c] - half[c]),
            high: [0, 1].map(|c| self.centre[c] + half[c]),
        }
    }

    /// Squared distance of the two farthest points of cell and upright box.
    fn farthest(&self, cell: &Square) -> i128 {
        let mut most = 0;
        for [x, y] in cell.corners() {
            for [u, v] in self.upright_box().corners() {
                most = most.max((x - u).pow(2) + (y - v).pow(2));
            }
        }
        most
    }

    /// Squared distance between cell and upright box.
    fn gap(&self, cell: &Square) -> i128 {
        let own = self.upright_box();
        let [x, y] = [0, 1].map(|c| {
            let gap = (cell.low[c] - own.high[c]).max(own.low[c] - cell.high[c]);
            gap.max(0)
        });
        x * x + y * y
    }

    /// Least cross product of the axis with a way from strip to cell, in size;
    /// 0 where both signs occur.
    fn across(&self, cell: &Square) -> i128 {
        let [p, q] = self.axis;
        let ends = Square {
            low: [0, 1].map(|c| self.centre[c] - self.half_box[c]),
            high: [0, 1].map(|c| self.centre[c] + self.half_box[c]),
        };
        let mut products = Vec::new();
        for [x, y] in cell.corners() {
            for [u, v] in ends.corners() {
                products.push((x - u) * q - (y - v) * p);
            }
        }
        let least = products.iter().min().unwrap();
        let most = products.iter().max().unwrap();
        (*least).max(-most).max(0)
    }

    /// The axis's length, rounded up to a whole number, by bisection.
    fn length(&self) -> i128 {
        let square = self.axis[0].pow(2) + self.axis[1].pow(2);
        let (mut below, mut enough) = (-1, 1 << 30);
        while enough - below > 1 {
            let middle = (below + enough) / 2;
            if middle * middle >= square {
                enough = middle;
            } else {
                below = middle;
            }
        }
        enough
    }

    /// C, I, or D for neither.
    fn answer(&self, cell: &Square, r: i128, notes: &mut Notes) -> u8 {
        let (farthest, gap) = (self.farthest(cell), self.gap(cell));
        if farthest < r * r {
            notes.inside += 1;
            return b'I';
        }
        notes.inside_ties += usize::from(farthest == r * r);
        if gap >= r * r {
            notes.gap += 1;
            notes.gap_ties += usize::from(gap == r * r);
            return b'C';
        }
        if self.axis == [0, 0] {
            notes.box_alone += usize::from(self.half_box != [0, 0]);
            return b'D';
        }
        let (across, limit) = (self.across(cell), r * self.length());
        if across >= limit {
            notes.slant += 1;
            let is_whole = self.length().pow(2) == self.axis[0].pow(2) + self.axis[1].pow(2);
            notes.whole_slant_ties += usize::from(across == limit && is_whole);
            notes.other_slant_ties += usize::from(across == limit && !is_whole);
            return b'C';
        }
        b'D'
    }
}

/// The answers of the parts of a tree or of the outline, together.
fn joined(answers: &[u8]) -> u8 {
    if answers.contains(&b'I') {
        b'I'
    } else if answers.contains(&b'D') {
        b'D'
    } else {
        b'C'
    }
}

/// The answers of the trees that stand one after another in this stretch.
fn stretch(store: &[i32], cell: &Square, r: i128, notes: &mut Notes) -> u8 {
    let mut answers = Vec::new();
    let mut rest = store;
    while !rest.is_empty() {
        let (tree, after) = rest.split_at(NUMBERS_A_NODE * rest[6] as usize);
        let own = Node::of(tree).answer(cell, r, notes);
        answers.push(if own == b'D' && tree.len() > NUMBERS_A_NODE {
            stretch(&tree[NUMBERS_A_NODE..], cell, r, notes)
        } else {
            own
        });
        rest = after;
    }
    joined(&answers)
}

/// The letter of a smallest cell: the first of the cells around it, from the
/// plate down, that is settled, or D.
fn letter(job: &Job, store: &[i32], column: usize, row: usize, notes: &mut Notes) -> u8 {
    let r = 16 * i128::from(job.reach);
    let mut size = 1 << (job.n - job.m);
    loop {
        let square = Square::around(job, column, row, size);
        let answer = stretch(store, &square, r, notes);
        if answer != b'D' || size == 1 {
            return answer;
        }
        size /= 2;
    }
}

/// Checks a job's map, if it has one.
fn check(job: &Job, notes: &mut Notes) {
    let Ok(done) = finished(job) else { return };
    let side = 1 << (job.n - job.m);
    for (index, &drawn) in done.letters.iter().enumerate() {
        let wanted = letter(job, &done.store, index % side, index / side, notes);
        assert_eq!(drawn, wanted, "cell {index} of {job:?}");
    }
}

#[test]
fn maps_follow_the_definition() {
    let mut rng = Xorshift::new(0x2f6b_1d43);
    let mut notes = Notes::default();
    for _ in 0..400 {
        check(&random_job(&mut rng, 3), &mut notes);
    }
    let Notes {
        inside, gap, slant, ..
    } = notes;
    assert!(inside.min(gap).min(slant) > 1_000, "{notes:?}");
}

/// With tiny numbers the compared values often are equal, which makes a cell
/// away and never inside. Every third cubic goes there and back, so that its
/// strip has no axis.
#[test]
fn maps_with_ties_follow_the_definition() {
    let mut rng = Xorshift::new(0x6a09_e667);
    let mut notes = Notes::default();
    for _ in 0..20_000 {
        let mut job = sample_job();
        job.marks[0] = rng.between(0, 1);
        let used = if job.marks[0] == 1 { 4 } else { 8 };
        for number in &mut job.places[..used] {
            *number = rng.between(-9, 9);
        }
        if used == 8 && rng.below(3) == 0 {
            job.places.copy_within(2..4, 4);
            job.places.copy_within(0..2, 6);
        }
        (job.x, job.y) = (rng.between(-20, 20), rng.between(-20, 20));
        (job.n, job.m) = (rng.between(1, 3), rng.between(0, 1));
        (job.reach, job.grain) = (rng.between(1, 20), rng.between(1, 12));
        check(&job, &mut notes);
    }
    let slant_ties = notes.whole_slant_ties.min(notes.other_slant_ties);
    let fewest = notes.inside_ties.min(notes.gap_ties).min(slant_ties);
    assert!(fewest > 3 && notes.box_alone > 1_000, "{notes:?}");
}

/// Half the side of the cells below, and their reach, in fine units.
const HALF_SIDE: i64 = 16;
const REACH: i64 = 80;

/// A strip and the way from its middle to that of a cell.
#[derive(Clone, Copy, Debug)]
struct Meeting {
    axis: [i64; 2],
    half_box: [i64; 2],
    way: [i64; 2],
}

fn meeting(axis: [i64; 2], half_box: [i64; 2], way: [i64; 2]) -> Meeting {
    Meeting {
        axis,
        half_box,
        way,
    }
}

/// The three compared values of a meeting.
struct Compared {
    farthest: i128,
    gap: i128,
    across: i128,
    /// What the last is compared with.
    limit: i128,
}

impl Meeting {
    /// The same with the cell moved in x.
    fn moved(self, x: i64) -> Meeting {
        let [wx, wy] = self.way;
        Meeting {
            way: [wx + x, wy],
            ..self
        }
    }

    /// The strip in the middle of the plane and the cell, as corners.
    fn apart(self) -> (Node, Square) {
        let node = Node {
            centre: [0, 0],
            axis: self.axis.map(i128::from),
            half_box: self.half_box.map(i128::from),
        };
        let square = Square {
            low: self.way.map(|w| i128::from(w - HALF_SIDE)),
            high: self.way.map(|w| i128::from(w + HALF_SIDE)),
        };
        (node, square)
    }

    fn compared(self) -> Compared {
        let (node, square) = self.apart();
        Compared {
            farthest: node.farthest(&square),
            gap: node.gap(&square),
            across: node.across(&square),
            limit: i128::from(REACH) * node.length(),
        }
    }

    /// The eight mirror images, each with the axis either way round.
    fn images(self) -> Vec<Meeting> {
        let mut images = Vec::new();
        for bits in 0..16 {
            let turned = |[x, y]: [i64; 2]| if bits & 1 == 0 { [x, y] } else { [y, x] };
            let signs = [2, 4].map(|bit| if bits & bit == 0 { 1 } else { -1 });
            let back = if bits & 8 == 0 { 1 } else { -1 };
            let [axis, way] = [self.axis, self.way].map(|pair| {
                let [x, y] = turned(pair);
                [signs[0] * x, signs[1] * y]
            });
            images.push(Meeting {
                axis: axis.map(|number| back * number),
                half_box: turned(self.half_box),
                way,
            });
        }
        images
    }

    /// Both this file's definition and the library must give this answer, for
    /// all images and wherever the strip is.
    fn check(self, wanted: Answer) {
        for image in self.images() {
            let (node, square) = image.apart();
            let letter = node.answer(&square, REACH.into(), &mut Notes::default());
            let own = match letter {
                b'I' => Answer::Inside,
                b'C' => Answer::Away,
                _ => Answer::Maybe,
            };
            assert_eq!(own, wanted, "{image:?}");
            for centre in [[0, 0], [7, -1_000_001], [-15_999_993, 16_000_000]] {
                let strip = Strip {
                    centre,
                    axis: image.axis,
                    half_box: image.half_box,
                };
                let cell = Cell {
                    centre: [0, 1].map(|c| centre[c] + image.way[c]),
                    half_side: HALF_SIDE,
                };
                let answer = strip_answer(cell, &strip, REACH);
                assert_eq!(answer, wanted, "{image:?} at {centre:?}");
            }
        }
    }
}

/// The farthest points of cell and strip are (48, 64) apart, the reach exactly:
/// the way, the axis, the box and 16 add up to that.
#[test]
fn a_tie_of_the_farthest_is_not_inside() {
    for tie in [
        meeting([0, 0], [0, 0], [32, 48]),
        meeting([0, 0], [3, 5], [29, 43]),
        meeting([3, 4], [0, 0], [29, 44]),
        meeting([3, 4], [3, 5], [26, 39]),
        meeting([5, 5], [0, 0], [27, 43]),
        meeting([5, 5], [3, 5], [24, 38]),
    ] {
        assert_eq!(tie.compared().farthest, 6_400);
        tie.moved(-1).check(Answer::Inside);
        tie.check(Answer::Maybe);
        tie.moved(1).check(Answer::Maybe);
    }
}

/// Cell and upright box are (80, 0) or (48, 64) apart, the reach exactly: the
/// way is that and the axis, the box and 16. Across the slant none is farther
/// than the reach. The last is as far there, since its axis is upright.
#[test]
fn a_tie_of_the_gap_is_away() {
    for tie in [
        meeting([0, 0], [0, 0], [96, 0]),
        meeting([0, 0], [0, 0], [64, 80]),
        meeting([0, 0], [3, 5], [99, 0]),
        meeting([0, 0], [3, 5], [67, 85]),
        meeting([30, 40], [0, 0], [126, 0]),
        meeting([30, 40], [0, 0], [94, 120]),
        meeting([30, 40], [3, 5], [129, 0]),
        meeting([30, 40], [3, 5], [97, 125]),
        meeting([20, 20], [0, 0], [116, 0]),
        meeting([20, 20], [0, 0], [84, 100]),
        meeting([20, 20], [3, 5], [119, 0]),
        meeting([20, 20], [3, 5], [87, 105]),
        meeting([0, 20], [0, 0], [96, 0]),
    ] {
        let compared = tie.compared();
        assert_eq!(compared.gap, 6_400);
        assert!(compared.across <= compared.limit);
        tie.moved(-1).check(Answer::Maybe);
        tie.check(Answer::Away);
        tie.moved(1).check(Answer::Away);
    }
}

/// The axis (30, 40) is 50 long and (3, 4) is 5. With (20, 20) it is below 29,
/// which stands for it. The cross product of the way, here 40 * 80 + 30 * 64 for
/// the first, is the reach times that and what cell and box take off: 4,000 and
/// 40 * 16 + 30 * 16. The upright box is nearer.
#[test]
fn a_tie_across_the_slant_is_away() {
    for tie in [
        meeting([30, 40], [0, 0], [80, -64]),
        meeting([30, 40], [3, 5], [80, -73]),
        meeting([3, 4], [0, 0], [80, -64]),
        meeting([3, 4], [0, 0], [77, -68]),
        meeting([3, 4], [3, 5], [80, -73]),
        meeting([20, 20], [0, 0], [74, -74]),
        meeting([20, 20], [3, 5], [78, -78]),
    ] {
        let compared = tie.compared();
        assert_eq!(compared.across, compared.limit);
        assert!(compared.gap < 6_400);
        tie.moved(-1).check(Answer::Maybe);
        tie.check(Answer::Away);
        tie.moved(1).check(Answer::Away);
    }
    // The cross product one less and one more, 4 * 79 + 3 * 65 and so on.
    meeting([3, 4], [0, 0], [79, -65]).check(Answer::Maybe);
    meeting([3, 4], [0, 0], [81, -63]).check(Answer::Away);
}

/// The root goes up: this cell is farther than the reach from the slanting line
/// by exact lengths, and only a whole root of 29 leaves it open.
#[test]
fn a_root_that_is_not_whole_goes_up() {
    let open = meeting([20, 20], [0, 0], [73, -74]);
    let Compared { across, limit, .. } = open.compared();
    assert_eq!((across, limit), (2_300, 2_320));
    assert!(across * across > 6_400 * (20 * 20 + 20 * 20));
    open.check(Answer::Maybe);
}

/// Without an axis nothing lies across: 0 would be at least 0 for every cell.
/// So only farthest and gap decide, however near the cell is.
#[test]
fn a_strip_without_an_axis_has_no_slant() {
    for half_box in [[0, 0], [3, 5], [40, 0], [60, 70]] {
        let mut seen = [0; 3];
        for wx in 0..170 {
            for wy in 0..170 {
                let near = meeting([0, 0], half_box, [wx, wy]);
                let Compared { farthest, gap, .. } = near.compared();
                let (index, wanted) = match (farthest < 6_400, gap < 6_400) {
                    (true, _) => (0, Answer::Inside),
                    (false, true) => (1, Answer::Maybe),
                    (false, false) => (2, Answer::Away),
                };
                seen[index] += 1;
                near.check(wanted);
            }
        }
        assert!(seen[1] > 1_000 && seen[2] > 1_000, "{seen:?}");
    }
}
