//! Runs of doubles, and streams that are nearly theirs.

use crate::common::*;
use reference::fpc::Predictors;

/// Every length of the tables.
pub const SIZES: [usize; 7] = [16, 32, 64, 128, 256, 512, 1024];

/// What tables hold when they are lent does not matter.
pub fn lent_table(random: &mut Random, len: usize) -> Vec<u64> {
    if random.once_in(2) { vec![0; len] } else { (0..len).map(|_| random.bits()).collect() }
}

/// The ways in which runs are made.
pub const MAKERS: usize = 11;

/// A run made in one of the ways, for tables of that size.
pub fn run(random: &mut Random, maker: usize, size: usize, len: usize) -> Vec<u64> {
    match maker {
        // Any patterns.
        0 => (0..len).map(|_| random.bits()).collect(),
        // Constant.
        1 => vec![random.bits(); len],
        // Smooth.
        2 => {
            let step = 1.0 / (2 + random.below(100)) as f64;
            (0..len).map(|k| (36.6 + (k as f64 * step).sin()).to_bits()).collect()
        }
        // Equal differences of the patterns.
        3 => {
            let (first, step) = (random.bits(), random.bits() >> random.below(64));
            (0..len as u64).map(|k| first.wrapping_add(k.wrapping_mul(step))).collect()
        }
        // Short patterns: leading zeros everywhere.
        4 => (0..len).map(|_| random.bits() >> random.below(64)).collect(),
        // Special doubles.
        5 => {
            let special =
                [0.0, -0.0, 1.0, -1.0, f64::INFINITY, f64::NAN, f64::MAX, f64::MIN_POSITIVE, 5e-324];
            (0..len).map(|_| random.pick(&special).to_bits()).collect()
        }
        // A few values that come again: the fcm side is right.
        6 => {
            let values: Vec<u64> = (0..1 + random.below(6)).map(|_| random.bits()).collect();
            (0..len).map(|k| values[k % values.len()]).collect()
        }
        // Values with equal top bits: all hashes collide.
        7 => {
            let top = random.bits() & 0xFFFF_FF00_0000_0000;
            (0..len).map(|_| top | random.bits() >> random.pick(&[24, 32, 48, 60])).collect()
        }
        // Bits of the value and of the difference that the hashes drop.
        8 => {
            let top = (size as u64) << 48;
            (0..len).map(|_| top.wrapping_mul(random.below(8) as u64) | random.bits() >> 40).collect()
        }
        // Differences that collide in the dfcm table.
        9 => {
            let mut last = random.bits();
            (0..len)
                .map(|_| {
                    let step = (random.below(4) as u64) << 40 | random.bits() >> 50;
                    last = last.wrapping_add(step.wrapping_mul(size as u64));
                    last
                })
                .collect()
        }
        // Next to a prediction: every count of leading zero bytes on both sides.
        _ => near_predictions(random, size, len),
    }
}

/// Each double differs from a chosen side's prediction in a chosen number of low bytes.
pub fn near_predictions(random: &mut Random, size: usize, len: usize) -> Vec<u64> {
    let mut predictors = Predictors::new(size);
    (0..len)
        .map(|_| {
            let prediction = if random.once_in(2) { predictors.fcm() } else { predictors.dfcm() };
            let bits = random.below(65) as u32;
            let xor = if bits == 0 { 0 } else { (random.bits() | 1 << 63) >> (64 - bits) };
            let v = prediction ^ xor;
            predictors.update(v);
            v
        })
        .collect()
}

/// A stream of which now and then a double takes the other side, or more bytes than it needs.
pub fn loose_stream(random: &mut Random, size: usize, len: usize) -> Vec<u8> {
    let remaining = [8, 7, 6, 5, 3, 2, 1, 0];
    let mut predictors = Predictors::new(size);
    let mut coded = Vec::new();
    for v in near_predictions(random, size, len) {
        let (mut half, mut bytes) = predictors.code(v);
        if random.once_in(10) {
            let side = if random.once_in(2) { half ^ 8 } else { half } & 8;
            let xor = v ^ if side == 0 { predictors.fcm() } else { predictors.dfcm() };
            let needed = (64 - xor.leading_zeros()).div_ceil(8) as usize;
            let mut code = remaining.iter().rposition(|&bytes| bytes >= needed).unwrap();
            code = code.saturating_sub(random.below(2));
            half = side | code as u8;
            bytes = xor.to_le_bytes()[..remaining[code]].to_vec();
        }
        coded.push((half, bytes));
        predictors.update(v);
    }
    if len % 2 == 1 {
        coded.push((6, vec![if random.once_in(8) { random.byte() } else { 0 }]));
    }
    let pairs = coded.chunks(2);
    pairs.flat_map(|p| [vec![p[0].0 << 4 | p[1].0], p[0].1.clone(), p[1].1.clone()].concat()).collect()
}
