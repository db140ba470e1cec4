//! How far lossy readings come back from what was stored: integers (module [`integers`]), and floats, in units of 2^q, q
//! being the lowest exponent. The rest of this page is about floats.
//!
//! A block is stored as lossy floats with P = 32, in a slot of 33N + 14 bits, which cuts nothing, and read back. Its
//! error is the largest |back - value| / 2^q. With m from the block's largest exponent, k = m - q + 2 x (d + 1) planes
//! are coded in dimension d, but none where k is below 1 and 32 where it is above. Blocks are drawn for each k.
//!
//! All numbers are drawn from fixed seeds, so every run of one length finds the same. A longer run draws the blocks of
//! a shorter one and more.
#![forbid(unsafe_code)]

pub mod argument;
mod climb;
mod digits;
pub mod draw;
pub mod ends;
pub mod error;
pub mod integers;
pub mod model;
pub mod report;
pub mod run;
pub mod sizes;

/// The examples of docs/LOSSY.md are compiled and run.
#[cfg(doctest)]
#[doc = include_str!("../../../docs/LOSSY.md")]
struct Page;

/// The dimensions.
pub const DIMENSIONS: [u32; 4] = [1, 2, 3, 4];

/// The planes of a word, and the largest k at which k planes are coded.
pub const ALL_PLANES: i32 = 32;

/// The words of a block: 4, 16, 64 or 256.
pub fn block_len(d: u32) -> usize {
    4usize.pow(d)
}

/// 2^q, for q in the range of normal binary64 numbers.
pub fn power_of_two(q: i32) -> f64 {
    f64::from_bits(((1023 + q) as u64) << 52)
}
