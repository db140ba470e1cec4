//! The same without a slot, by the transforms of `reference`: what is read before and after it is rounded to binary32.
//!
//! It leads the search to blocks with large errors. What is reported of them is the library's.

use crate::error::lowest;
use crate::power_of_two;
use reference::floats::{common_exponent, exponent_field, to_integer, to_pattern};
use reference::transform::{backward, forward, lift, unlift};
use reference::words::{from_negabinary, to_negabinary};

/// The bits of the k highest planes.
fn mask(k: i32) -> u32 {
    match k {
        ..=0 => 0,
        1..=31 => !0 << (32 - k),
        _ => !0,
    }
}

/// The integers that are read of k planes of a block of integers.
pub fn integers_back(d: u32, integers: &[u32], k: i32) -> Vec<u32> {
    let mut block = integers.to_vec();
    forward(&mut block, d, lift);
    for c in &mut block {
        *c = from_negabinary(to_negabinary(*c) & mask(k));
    }
    backward(&mut block, d, unlift);
    block
}

/// What a block comes back as.
pub fn back(d: u32, words: &[u32], k: i32) -> Vec<u32> {
    let e = common_exponent(words);
    read(d, words, k).into_iter().map(|integer| to_pattern(e, integer)).collect()
}

fn read(d: u32, words: &[u32], k: i32) -> Vec<u32> {
    let e = common_exponent(words);
    let integers: Vec<u32> = words.iter().map(|&word| to_integer(e, word)).collect();
    integers_back(d, &integers, k)
}

/// The largest errors of a block in units of 2^q.
#[derive(Clone, Copy, Debug)]
pub struct Errors {
    /// Of the integers times 2^(m-30).
    pub before: f64,
    /// Of these rounded to binary32.
    pub after: f64,
    /// As `before`, of the values at which binary32 has steps of 2^q: there half a step too much makes it a whole one.
    pub coarse: f64,
}

/// The exponent of the step of binary32 at a value.
fn step(word: u32) -> i32 {
    exponent_field(word).max(1) as i32 - 150
}

/// The errors of a block at the q that has it coded in k planes.
pub fn errors(d: u32, words: &[u32], k: i32) -> Errors {
    let e = common_exponent(words);
    let unit = power_of_two(e as i32 - 157);
    let q = lowest(d, words, k);
    let scale = power_of_two(-q);
    let mut errors = Errors { before: 0.0, after: 0.0, coarse: 0.0 };
    for (&word, integer) in words.iter().zip(read(d, words, k)) {
        let value = f64::from(f32::from_bits(word));
        let rounded = f64::from(f32::from_bits(to_pattern(e, integer)));
        let before = (f64::from(integer as i32) * unit - value).abs() * scale;
        errors.before = errors.before.max(before);
        if step(word) == q {
            errors.coarse = errors.coarse.max(before);
        }
        errors.after = errors.after.max((rounded - value).abs() * scale);
    }
    errors
}
