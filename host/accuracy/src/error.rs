//! The error of a block, by a store and a read of the library.

use crate::{ALL_PLANES, block_len, power_of_two};
use reference::floats::common_exponent;
use windlassow::{Dimension, Params, read, store};

/// m of a block: its values are below 2^m in magnitude, the largest not below 2^(m-1) unless it is subnormal.
pub fn exponent(words: &[u32]) -> i32 {
    common_exponent(words) as i32 - 127
}

/// The q at which k planes of a block are coded.
pub fn lowest(d: u32, words: &[u32], k: i32) -> i32 {
    exponent(words) - k + 2 * (d as i32 + 1)
}

/// The dimension of that number.
pub fn dimension(d: u32) -> Dimension {
    [Dimension::One, Dimension::Two, Dimension::Three, Dimension::Four][d as usize - 1]
}

/// A slot that takes every block of a dimension.
pub struct Slot {
    d: u32,
    params: Params,
    archive: Vec<u8>,
    back: Vec<u32>,
}

impl Slot {
    /// P = 32, W = 33N + 14.
    pub fn new(d: u32) -> Slot {
        let width = 33 * block_len(d) as u32 + 14;
        let params = Params::lossy_floats(dimension(d), ALL_PLANES as u32, width);
        let archive = vec![0; params.archive_len(1).expect("one slot is short enough")];
        Slot { d, params, archive, back: vec![0; block_len(d)] }
    }

    /// What a block comes back as with a lowest exponent q. Fails if the planes stored or read are not `planes`, or if their
    /// code is longer than N a plane and N + 8.
    pub fn back(&mut self, words: &[u32], q: i32, planes: u32) -> &[u32] {
        let params = self.params.with_lowest(q);
        let stored = store(params, &mut self.archive, 0, words).expect("the values are finite");
        assert_eq!(stored.planes, planes, "planes stored, q = {q}, {words:x?}");
        assert!(stored.count <= words.len() * (planes as usize + 1) + 8, "{} bits", stored.count);
        let read = read(params, &self.archive, 0, &mut self.back).expect("a lossy slot is read");
        assert_eq!(read.planes, planes, "planes read, q = {q}, {words:x?}");
        &self.back
    }

    /// The error of a block that is not all zero, at the q that has it coded in k planes.
    pub fn error(&mut self, words: &[u32], k: i32) -> f64 {
        let q = lowest(self.d, words, k);
        let back = self.back(words, q, k.clamp(0, ALL_PLANES) as u32);
        distance(words, back) / power_of_two(q)
    }
}

/// The largest |back - value|. Both are binary32 values, exact in binary64; their difference is rounded once, to 53 bits, if
/// at all. To divide it by a power of two rounds nothing: it is 0 or not below 2^-149, and q is from -300 to 300.
fn distance(words: &[u32], back: &[u32]) -> f64 {
    let value = |word: u32| f64::from(f32::from_bits(word));
    words.iter().zip(back).map(|(&word, &back)| (value(back) - value(word)).abs()).fold(0.0, f64::max)
}
