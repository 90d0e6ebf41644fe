//! Drawing the map by quartering the plate, a quadtree that is never stored:
//! RULES, "Plates".

use crate::explore::{outline_answer, Answer, Cell};
use crate::job::Job;
use crate::trees::Tree;

/// How many smallest cells a side of a legal job's plate has.
pub fn cells_a_side(job: &Job) -> usize {
    1 << (job.n - job.m)
}

/// Draws the map of a legal job. The letters are exactly as many as its cells.
pub fn draw(job: &Job, trees: &[Tree], letters: &mut [u8]) {
    let side = cells_a_side(job);
    let mut map = Map {
        job,
        trees,
        letters,
        side,
    };
    map.explore(Block {
        column: 0,
        row: 0,
        size: side,
    });
}

/// A square of smallest cells, its lowest column and row first.
#[derive(Clone, Copy)]
struct Block {
    column: usize,
    row: usize,
    size: usize,
}

struct Map<'a> {
    job: &'a Job,
    trees: &'a [Tree],
    letters: &'a mut [u8],
    side: usize,
}

impl Map<'_> {
    /// Fills a block with one letter, or quarters it.
    fn explore(&mut self, block: Block) {
        let reach = 16 * i64::from(self.job.reach);
        match outline_answer(self.cell(block), self.trees, reach) {
            Answer::Away => self.fill(block, b'C'),
            Answer::Inside => self.fill(block, b'I'),
            Answer::Maybe if block.size == 1 => self.fill(block, b'D'),
            Answer::Maybe => self.quarter(block),
        }
    }

    fn quarter(&mut self, block: Block) {
        let size = block.size / 2;
        for row in [block.row, block.row + size] {
            for column in [block.column, block.column + size] {
                self.explore(Block { column, row, size });
            }
        }
    }

    fn fill(&mut self, block: Block, letter: u8) {
        for row in block.row..block.row + block.size {
            let start = row * self.side + block.column;
            self.letters[start..start + block.size].fill(letter);
        }
    }

    /// The block in fine units, sixteen to the hundredth of a millimetre.
    fn cell(&self, block: Block) -> Cell {
        let smallest_side = 16_i64 << self.job.m;
        let half_side = smallest_side * block.size as i64 / 2;
        let middle = |corner: i32, index: usize| {
            16 * i64::from(corner) + smallest_side * index as i64 + half_side
        };
        Cell {
            centre: [
                middle(self.job.x, block.column),
                middle(self.job.y, block.row),
            ],
            half_side,
        }
    }
}
