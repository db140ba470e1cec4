//! Lossy integers of dimension 1 with P = 32: how far off each of the four values of a block comes back.

use crate::draw::tenths;
use random::Random;
use std::ops::RangeInclusive;
use testing::by_hand::integers::{LARGEST, MOST_BITS, off, within};
use testing::grouped;
use windlassow::{Block, Dimension, Done, Params, Refusal, bit_count, read_block, store_block};

/// The blocks that the page counts.
pub const BLOCKS: usize = 100_000;

/// The differences that occur.
const DIFFERENCES: RangeInclusive<i64> = -2..=1;

/// Lossy integers with all planes, in slots of `width` bits.
fn params(width: u32) -> Params {
    Params::lossy_integers(Dimension::One, 32, width)
}

/// What four values were stored as and come back as, from a slot of `width` bits.
///
/// # Errors
/// None for a width from 16 to 8,462.
pub fn back(width: u32, values: [i32; 4]) -> Result<(Done, Block<i32, 4>), Refusal> {
    let params = params(width);
    let mut archive = vec![0; params.archive_len(1)?];
    let done = store_block(params, &mut archive, 0, &values)?;
    Ok((done, read_block(params, &archive, 0)?))
}

/// Sorts of blocks.
#[derive(Clone, Copy, Debug, PartialEq, Eq)]
pub enum Sort {
    /// Readings in tenths of a degree.
    Readings,
    /// Integers from -4 to 3.
    Small,
    /// Any integers of the range.
    Any,
    /// The largest and the smallest of the range, a few less.
    Ends,
    /// Near powers of two, of either sign.
    Powers,
}

impl Sort {
    /// All of them.
    pub const ALL: [Sort; 5] = [Sort::Readings, Sort::Small, Sort::Any, Sort::Ends, Sort::Powers];

    /// A block, all of whose values are in the range.
    pub fn draw(self, random: &mut Random) -> [i32; 4] {
        match self {
            Sort::Readings => tenths(random, 1).try_into().expect("a block of dimension 1 is four values"),
            Sort::Small => [0; 4].map(|_: i32| random.word_below(8) as i32 - 4),
            Sort::Any => [0; 4].map(|_: i32| (random.word() as i32 >> 1).max(-LARGEST)),
            Sort::Ends => {
                [0; 4].map(|_: i32| random.pick(&[1, -1]) * (LARGEST - random.word_below(4) as i32))
            }
            Sort::Powers => [0; 4].map(|_: i32| {
                let near = (1 << random.word_below(31)) + random.word_below(5) as i32 - 2;
                random.pick(&[1, -1]) * near.min(LARGEST)
            }),
        }
    }
}

/// What was found of many blocks.
#[derive(Debug, Default)]
pub struct Found {
    /// Blocks.
    pub blocks: usize,
    /// Those of which every value came back as it was.
    pub exact: usize,
    /// For each value how often it was off by -2, -1, 0 and 1.
    pub counts: [[usize; 4]; 4],
    /// The bits of their codes.
    pub bits: usize,
    /// Of those of four times their values.
    pub fours_bits: usize,
    /// The bits of their exact codes.
    pub exact_bits: usize,
}

impl Found {
    /// Stores and reads blocks of a sort in slots of `MOST_BITS` bits.
    ///
    /// # Errors
    /// None.
    ///
    /// # Panics
    /// If a value is off by more than it may.
    pub fn of(sort: Sort, blocks: usize) -> Result<Found, Refusal> {
        let mut random = Random::new(sort as u64);
        let mut found = Found { blocks, ..Found::default() };
        for _ in 0..blocks {
            found.count(sort.draw(&mut random))?;
        }
        Ok(found)
    }

    fn count(&mut self, values: [i32; 4]) -> Result<(), Refusal> {
        let (done, back) = back(MOST_BITS, values)?;
        let off = off(values, back.values);
        assert!(within(off), "{values:?} came back off by {off:?}");
        for (counts, off) in self.counts.iter_mut().zip(off) {
            counts[(off - DIFFERENCES.start()) as usize] += 1;
        }
        self.exact += usize::from(off == [0; 4]);
        self.bits += done.count;
        let words = |times: i32| values.map(|value| value.wrapping_mul(times) as u32);
        self.fours_bits += bit_count(params(MOST_BITS), &words(4))?.count;
        self.exact_bits += bit_count(Params::exact_integers(Dimension::One), &words(1))?.count;
        Ok(())
    }

    /// Whether the value at a place has come back by so much off.
    pub fn has(&self, place: usize, off: i64) -> bool {
        self.counts[place][(off - DIFFERENCES.start()) as usize] > 0
    }

    /// The rows of the page's table of sizes.
    pub fn size_rows(&self) -> [String; 4] {
        let mean = |bits: usize| bits as f64 / self.blocks as f64;
        [
            format!("| mean bits of a block, lossy with P = 32 | {:.1} |", mean(self.bits)),
            format!("| of four times the readings | {:.1} |", mean(self.fours_bits)),
            format!("| exact | {:.1} |", mean(self.exact_bits)),
            format!("| blocks that came back as they were | {} |", grouped(self.exact)),
        ]
    }

    /// A row of the page's table of counts.
    pub fn row(&self, place: usize) -> String {
        let name = ["first", "second", "third", "fourth"][place];
        let counts = self.counts[place].map(grouped);
        format!("| {name} | {} |", counts.join(" | "))
    }
}
