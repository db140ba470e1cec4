//! The bits that readings take within a tolerance, beside their exact code.

use crate::block_len;
use crate::draw::readings;
use crate::error::{Slot, dimension};
use crate::power_of_two;
use random::Random;
use windlassow::{Params, Refusal, bit_count};

/// The blocks that are counted.
const BLOCKS: usize = 1_000;

/// What the readings of a dimension take.
pub struct Sizes {
    /// The dimension.
    pub d: u32,
    /// The mean bits of a block within the tolerance.
    pub lossy: f64,
    /// The most bits of one.
    pub most: usize,
    /// The mean bits of its exact code.
    pub exact: f64,
    /// The largest error, in degrees.
    pub error: f64,
}

/// Half a tenth of a degree: q is -5.
pub const TOLERANCE: f64 = 0.05;

/// The q of the tolerance.
pub const LOWEST: i32 = -5;

/// Counts the bits of 1,000 blocks.
///
/// # Errors
/// None: every block is finite.
pub fn sizes(d: u32) -> Result<Sizes, Refusal> {
    let lossy = Params::lossy_floats_within(dimension(d), TOLERANCE)?;
    let exact = Params::exact_floats(dimension(d));
    let mut random = Random::new(u64::from(d));
    let mut slot = Slot::new(d);
    let (mut lossy_bits, mut exact_bits, mut most, mut error) = (0, 0, 0, 0f64);
    for _ in 0..BLOCKS {
        let words = readings(&mut random, d);
        let done = bit_count(lossy, &words)?;
        lossy_bits += done.count;
        exact_bits += bit_count(exact, &words)?.count;
        most = most.max(done.count);
        error = error.max(slot.error(&words, done.planes as i32) * power_of_two(LOWEST));
    }
    let mean = |bits: usize| bits as f64 / BLOCKS as f64;
    Ok(Sizes { d, lossy: mean(lossy_bits), most, exact: mean(exact_bits), error })
}

/// A row of the table of sizes.
pub fn size_row(sizes: &Sizes) -> String {
    let Sizes { d, lossy, most, exact, error } = sizes;
    let words = 32 * block_len(*d);
    format!("| {d} | {words} | {exact:.0} | {lossy:.0} | {most} | {error:.4} |")
}
