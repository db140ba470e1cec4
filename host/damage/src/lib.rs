//! What becomes of damaged slots and streams: refused with 11 or 23, or read as another block or run.
//!
//! The readings are made: temperatures in tenths of a degree that change by at most a tenth from one to the next. All
//! numbers are drawn from fixed seeds, so every run counts the same.
#![forbid(unsafe_code)]

mod slots;
mod streams;

use random::Random;
pub use slots::{bits_changed, bytes_changed, noise, zeros};
pub use streams::stream_bytes_changed;
use testing::grouped;
use windlassow::{Dimension, Params};

/// How many were damaged, and what a read made of them.
#[derive(Clone, Copy, Debug, Default, PartialEq, Eq)]
pub struct Tally {
    /// Slots or streams of which a bit is no longer what was written.
    pub damaged: usize,
    /// Those of them that were refused.
    pub refused: usize,
    /// Those that were read as another block or run.
    pub other: usize,
}

/// A sort of damage, and what came of it.
pub struct Row {
    /// In words.
    pub damage: String,
    /// In numbers.
    pub tally: Tally,
}

/// Exact floats in slots that every block fits, 146 bits.
pub fn floats() -> Params {
    Params::exact_floats(Dimension::One)
}

/// Exact integers in the narrowest slots that every block fits, 33N + 4 = 136 bits.
pub fn integers() -> Params {
    Params::exact_integers(Dimension::One).with_width(136)
}

/// Every sort of damage that the report has.
pub fn rows() -> Vec<Row> {
    let row = |damage: &str, tally| Row { damage: damage.to_string(), tally };
    vec![
        row("60 bytes changed in one archive, floats", bytes_changed(floats(), 1)),
        row("60 bytes changed in each of 1,000 archives, floats", bytes_changed(floats(), 1_000)),
        row("60 bytes changed in each of 1,000 archives, integers", bytes_changed(integers(), 1_000)),
        row("one bit changed in each slot of 100 archives, floats", bits_changed(floats(), 100)),
        row("every slot of 100 archives filled with random bits, floats", noise(floats(), 100)),
        row("every slot of an archive filled with zeros, floats", zeros(floats())),
        row("one byte changed in each of 10,000 FPC streams of 100 readings", stream_bytes_changed(10_000)),
    ]
}

/// The row as it stands in the report's table.
pub fn shown(row: &Row) -> String {
    let Tally { damaged, refused, other } = row.tally;
    format!("| {} | {} | {} | {} |", row.damage, grouped(damaged), grouped(refused), grouped(other))
}

/// Readings in tenths of a degree: from 20.0 to 42.0 at first, then at most a tenth away from the one before.
fn tenths(random: &mut Random, count: usize) -> Vec<u32> {
    let mut reading = random.between(200, 420);
    let mut next = || {
        reading = reading + random.word_below(3) - 1;
        reading
    };
    (0..count).map(|_| next()).collect()
}
