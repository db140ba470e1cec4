//! Blocks and archives to store and read.

use crate::common::*;
use reference::{Params, transform};
use testing::by_hand::indices;
use windlassow::{MAX_WIDTH, MIN_WIDTH};

pub const SPECIAL: [u32; 28] = [
    0,
    1,
    2,
    3,
    0xFFFF_FFFF,
    0xFFFF_FFFE,
    0x7FFF_FFFF,
    0x8000_0000,
    0x8000_0001,
    0x4000_0000,
    0xC000_0000,
    0x3FFF_FFFF,
    0x5555_5555,
    0xAAAA_AAAA,
    0xAAAA_AAAB,
    0x007F_FFFF,
    0x0080_0000,
    0x0080_0001,
    0x807F_FFFF,
    0x3F80_0000,
    0xBF80_0000,
    0x7F7F_FFFF,
    0xFF7F_FFFF,
    0x7F80_0000,
    0xFF80_0000,
    0x7FC0_0000,
    0x7F80_0001,
    0x0000_0080,
];

/// A block of n words, each made by `make` for its place.
pub fn every(random: &mut Random, n: usize, mut make: impl FnMut(&mut Random, usize) -> u32) -> Vec<u32> {
    (0..n).map(|place| make(random, place)).collect()
}

/// The ways in which blocks are made.
pub const MAKERS: usize = 14;

/// A block of n words, made in one of the ways.
pub fn block(random: &mut Random, maker: usize, n: usize) -> Vec<u32> {
    match maker {
        // Any words.
        0 => every(random, n, |random, _| random.word()),
        // Special ones.
        1 => every(random, n, |random, _| random.pick(&SPECIAL)),
        // All equal.
        2 => {
            let word = if random.once_in(2) { random.word() } else { random.pick(&SPECIAL) };
            vec![word; n]
        }
        // Powers of two of both signs, and their neighbours.
        3 => every(random, n, |random, _| {
            let power = 1u32 << random.below(32);
            let word = power.wrapping_add(random.below(3) as u32).wrapping_sub(1);
            if random.once_in(2) { word } else { word.wrapping_neg() }
        }),
        // Smooth integers.
        4 => {
            let (a, b, c) = (random.word() >> 4, random.word() >> 12, random.word() >> 20);
            every(random, n, |random, place| {
                let [i, j, k, l] = indices(place).map(|index| index as u32);
                let curve = a.wrapping_add(b.wrapping_mul(i + 2 * k)).wrapping_add(c.wrapping_mul(j * j + l));
                curve.wrapping_add(random.word() >> 29)
            })
        }
        // Small integers of both signs.
        5 => {
            let shift = random.below(31) as u32;
            every(random, n, |random, _| (random.word() as i32 >> shift) as u32)
        }
        // Smooth floats.
        6 => {
            let scale = f32::from_bits((20 + random.below(210) as u32) << 23);
            let slope = random.below(1000) as f32 / 4000.0;
            every(random, n, |_, place| {
                (scale * (1.0 + slope * (place % 4) as f32 - place as f32 / 64.0)).to_bits()
            })
        }
        // Floats with few bits in the fraction and near exponents: whole multiples.
        7 => {
            let field = 1 + random.below(250) as u32;
            every(random, n, |random, _| {
                let near = (field + random.below(4) as u32) << 23;
                near | random.word() & 0x8070_0000
            })
        }
        // Floats with exponents anywhere, also 255.
        8 => every(random, n, |random, _| (random.below(256) as u32) << 23 | random.word() & 0x807F_FFFF),
        // Finite floats near a largest exponent.
        9 => {
            let field = random.below(255) as u32;
            every(random, n, |random, _| {
                let down = random.below(40) as u32;
                field.saturating_sub(down) << 23 | random.word() & 0x807F_FFFF
            })
        }
        // Subnormals and zeros of both signs.
        10 => {
            let shift = 9 + random.below(23) as u32;
            every(random, n, |random, _| random.word() & 0x8000_0000 | random.word() >> shift)
        }
        // Zeros, with here and there a special word.
        11 => every(random, n, |random, _| if random.once_in(8) { random.pick(&SPECIAL) } else { 0 }),
        // Whole multiples at the edge: a value `down` binades below the largest may have a one in its fraction
        // down to bit down - 6. Now and then one lower.
        12 => {
            let field = 40 + random.below(200) as u32;
            every(random, n, |random, place| {
                let down = if place == 0 { 0 } else { random.below(30) as u32 };
                let last = down.saturating_sub(if random.once_in(40) { 7 } else { 6 });
                let fraction = (random.word() | 1) << last & 0x007F_FFFF;
                random.word() & 0x8000_0000 | (field - down) << 23 | fraction
            })
        }
        // The longest codes: coefficients with many ones.
        _ => {
            let dimension = n.ilog(4);
            let step = if random.once_in(2) { transform::sums } else { transform::unlift };
            let shift = random.below(32) as u32;
            let coefficients = every(random, n, |random, _| (u32::MAX ^ 1 << random.below(32)) << shift);
            transform::from_coefficients(&coefficients, dimension, step)
        }
    }
}

/// An archive that holds at least `slots` slots and some spare bits.
pub fn archive_for(random: &mut Random, p: &Params, slots: usize) -> Vec<u8> {
    let bytes = (slots * width_of(p)).div_ceil(8) + random.below(3);
    match random.below(3) {
        0 => vec![0; bytes],
        1 => vec![0xFF; bytes],
        _ => random.bytes(bytes),
    }
}

/// A width such as a block of this dimension may need, and now and then any other.
pub fn any_width(random: &mut Random, dimension: u32) -> u32 {
    let most = if random.once_in(8) { MAX_WIDTH } else { 37 * 4u32.pow(dimension) };
    random.between(MIN_WIDTH, most.min(MAX_WIDTH))
}

pub fn any_planes(random: &mut Random) -> u32 {
    if random.once_in(3) { 32 } else { 1 + random.below(32) as u32 }
}

/// Any good q.
pub fn any_lowest(random: &mut Random) -> i32 {
    MIN_LOWEST + random.below((MAX_LOWEST - MIN_LOWEST) as usize + 1) as i32
}
