//! Quartering the plate. The starts of the trees that are still open go down
//! with the quarters.

use super::search::{enough_for, search, tree_length, Answer};
use clearance_reference::{Job, EDGE_LIMIT};

/// Draws the map of a legal job. The store holds its trees, and there are bytes
/// for all its cells.
pub fn draw(job: &Job, store: &[i32], cells: &mut [u8]) {
    let side = 1 << (job.n - job.m);
    let half_side = 8_i64 << job.n;
    let mut starts = [0; EDGE_LIMIT];
    let mut at = 0;
    for start in &mut starts[..job.count] {
        *start = at;
        at += tree_length(store, at);
    }
    let mut plate = Plate {
        store,
        cells,
        side,
        reach: 16 * i64::from(job.reach),
    };
    let whole = Block {
        column: 0,
        row: 0,
        size: side,
        x: 16 * i64::from(job.x) + half_side,
        y: 16 * i64::from(job.y) + half_side,
        half_side,
    };
    plate.explore(whole, &starts[..job.count]);
}

struct Plate<'a> {
    store: &'a [i32],
    cells: &'a mut [u8],
    side: usize,
    reach: i64,
}

/// A square of smallest cells; its centre and half side are in fine units.
#[derive(Clone, Copy)]
struct Block {
    column: usize,
    row: usize,
    size: usize,
    x: i64,
    y: i64,
    half_side: i64,
}

impl Block {
    fn quarter(&self, right: bool, upper: bool) -> Block {
        let (size, half_side) = (self.size / 2, self.half_side / 2);
        let shift = |up| if up { half_side } else { -half_side };
        Block {
            column: self.column + if right { size } else { 0 },
            row: self.row + if upper { size } else { 0 },
            size,
            x: self.x + shift(right),
            y: self.y + shift(upper),
            half_side,
        }
    }
}

impl Plate<'_> {
    fn explore(&mut self, block: Block, open: &[usize]) {
        let mut kept = [0; EDGE_LIMIT];
        let Some(count) = self.still_open(&block, open, &mut kept) else {
            return self.fill(&block, b'I');
        };
        if count == 0 {
            return self.fill(&block, b'C');
        }
        if block.size == 1 {
            return self.fill(&block, b'D');
        }
        for (right, upper) in [(false, false), (true, false), (false, true), (true, true)] {
            self.explore(block.quarter(right, upper), &kept[..count]);
        }
    }

    /// Keeps the starts of the trees that are not away and counts them, or
    /// gives `None` as soon as one is inside.
    fn still_open(
        &self,
        block: &Block,
        open: &[usize],
        kept: &mut [usize; EDGE_LIMIT],
    ) -> Option<usize> {
        let &Block {
            x, y, half_side: s, ..
        } = block;
        let enough = enough_for(s, self.reach);
        let mut count = 0;
        for &start in open {
            let tree = &self.store[start..start + tree_length(self.store, start)];
            match search(tree, x, y, s, self.reach, enough) {
                Answer::Inside => return None,
                Answer::Maybe => {
                    kept[count] = start;
                    count += 1;
                }
                Answer::Away => {}
            }
        }
        Some(count)
    }

    fn fill(&mut self, block: &Block, letter: u8) {
        for row in block.row..block.row + block.size {
            let start = row * self.side + block.column;
            self.cells[start..start + block.size].fill(letter);
        }
    }
}
