//! Blocks of which all dropped digits push one value the same way.
//!
//! The digits below the k highest planes of a coefficient stand for a number from `least` to `most`, reached by ones at
//! every second place. Each coefficient gets the one of the two that moves the value aimed at in the wanted direction, or
//! something near it.

use crate::argument::{dropped, weight};
use crate::draw::{field, fraction};
use crate::model::errors;
use crate::{ALL_PLANES, block_len};
use random::Random;
use reference::floats::{common_exponent, to_pattern};
use reference::transform::{backward, forward, lift, unlift};

/// The integers of a block are below this.
const LIMIT: u32 = 1 << 30;

/// Attempts until the worst of them is taken.
const ATTEMPTS: usize = 24;

/// Such a block, k from 1 on, or none if no attempt came to values that are small enough and to the right exponent.
pub fn aimed(random: &mut Random, d: u32, k: i32) -> Option<Vec<u32>> {
    let blocks = (0..ATTEMPTS).filter_map(|_| attempt(random, d, k.min(ALL_PLANES)));
    let with_error = blocks.map(|words| (errors(d, &words, k).after, words));
    with_error.max_by(|a, b| a.0.total_cmp(&b.0)).map(|(_, words)| words)
}

fn attempt(random: &mut Random, d: u32, k: i32) -> Option<Vec<u32>> {
    let e = field(random) + 1;
    let place = place(random, d);
    let up = random.once_in(2);
    let less = random.pick(&[0.0, 0.001, 0.03, 0.2, 0.5]);
    let mut block = start(random, d, place);
    forward(&mut block, d, lift);
    for (j, c) in block.iter_mut().enumerate() {
        let least = (0..d).filter(|&axis| weight(index(place, axis), index(j, axis)) < 0.0).count() % 2 == 0;
        *c = with_digits(*c, k, least == up, 1.0 - less * random.part());
    }
    if random.once_in(2) {
        block[0] = block[0].wrapping_add(to_step(&block, d, k, place)?);
    }
    backward(&mut block, d, unlift);
    if block.iter().any(|&integer| (integer as i32).unsigned_abs() >= LIMIT) {
        return None;
    }
    let words: Vec<u32> = block.iter().map(|&integer| to_pattern(e, integer)).collect();
    (common_exponent(&words) == e).then_some(words)
}

/// The index of a place along an axis.
fn index(place: usize, axis: u32) -> usize {
    place / 4usize.pow(axis) % 4
}

/// The place aimed at. At the second value along each axis all coefficients have positive weights.
fn place(random: &mut Random, d: u32) -> usize {
    let second = (0..d).map(|axis| 4usize.pow(axis)).sum();
    if random.once_in(2) { second } else { random.below(block_len(d)) }
}

/// Integers to start from. One at least is large.
fn start(random: &mut Random, d: u32, place: usize) -> Vec<u32> {
    let len = block_len(d);
    let large = if random.once_in(2) { place } else { random.below(len) };
    let most = random.pick(&[0.0, 0.0, 1e-6, 1e-3, 0.5, 1.0]);
    let mut block: Vec<u32> = (0..len).map(|_| integer(fraction(random) * most)).collect();
    let size = random.pick(&[0.51, 0.6, 0.75, 0.9, 0.98, 1.0, 1.1, 1.2]);
    block[large] = integer(if random.once_in(2) { size } else { -size });
    block
}

/// A fraction of the limit as an integer.
fn integer(fraction: f64) -> u32 {
    (fraction * f64::from(LIMIT)) as i32 as u32
}

/// The nearest number of which the dropped digits stand for this part of the least number, or of the largest one.
fn with_digits(c: u32, k: i32, least: bool, part: f64) -> u32 {
    let (lower, upper) = dropped(k);
    let wanted = (f64::from(if least { lower } else { upper }) * part).round() as i64;
    let step = 1i64 << (32 - k);
    let steps = (i64::from(c as i32) - wanted + step / 2).div_euclid(step);
    (wanted + step * steps) as u32
}

/// What the first coefficient lacks to have the value at a place be one of binary32, or none if that would change its
/// digits. All values move by as much.
fn to_step(coefficients: &[u32], d: u32, k: i32, place: usize) -> Option<u32> {
    let mut block = coefficients.to_vec();
    backward(&mut block, d, unlift);
    let integer = i64::from(block[place] as i32);
    let step = 1 << (40 - integer.unsigned_abs().leading_zeros() as i64).max(0);
    let lacks = -integer.rem_euclid(step);
    (lacks % (1 << (32 - k)) == 0).then_some(lacks as u32)
}
