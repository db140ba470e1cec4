//! All blocks of a dimension, for each k and each class.

use crate::draw::Class;
use crate::error::Slot;
use random::Random;
use std::ops::RangeInclusive;

/// The k that are measured.
pub const K: RangeInclusive<i32> = -3..=40;

/// How many times as long as the short test the run for docs/LOSSY.md is, and the long test.
pub const LONG: usize = 40;

/// The largest error of a class at one k.
#[derive(Clone, Debug)]
pub struct Cell {
    /// The k.
    pub k: i32,
    /// The class.
    pub class: Class,
    /// How many blocks were stored and read.
    pub blocks: usize,
    /// The largest error, in units of 2^q.
    pub error: f64,
    /// The first block that has it.
    pub words: Vec<u32>,
}

/// What was found in a dimension.
pub struct Measured {
    /// The dimension.
    pub d: u32,
    /// All classes at all k.
    pub cells: Vec<Cell>,
}

impl Measured {
    /// The blocks of all cells.
    pub fn blocks(&self) -> usize {
        self.cells.iter().map(|cell| cell.blocks).sum()
    }

    /// The cell of the largest error among those that are asked for.
    pub fn worst(&self, wanted: impl Fn(&Cell) -> bool) -> &Cell {
        let cells = self.cells.iter().filter(|cell| wanted(cell));
        cells.max_by(|a, b| a.error.total_cmp(&b.error)).expect("a cell is asked for")
    }
}

/// Blocks of a class at each k, before the scale.
fn blocks(d: u32, class: Class) -> usize {
    let [drawn, climbed] = [[400, 8], [120, 4], [40, 3], [16, 2]][d as usize - 1];
    if class == Class::Climbed { climbed } else { drawn }
}

/// Stores and reads the blocks of a dimension.
pub fn measure(d: u32, scale: usize) -> Measured {
    let mut slot = Slot::new(d);
    let mut cells = Vec::new();
    for k in K {
        for class in Class::ALL {
            cells.push(cell(&mut slot, d, k, class, scale * blocks(d, class)));
        }
    }
    Measured { d, cells }
}

fn cell(slot: &mut Slot, d: u32, k: i32, class: Class, blocks: usize) -> Cell {
    let seed = u64::from(d) << 32 | ((k + 4) as u64) << 8 | class as u64;
    let mut random = Random::new(seed);
    let mut worst = Cell { k, class, blocks, error: -1.0, words: Vec::new() };
    for _ in 0..blocks {
        let words = class.draw(&mut random, d, k);
        let error = slot.error(&words, k);
        if error > worst.error {
            worst = Cell { error, words, ..worst };
        }
    }
    worst
}
