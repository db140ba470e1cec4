//! Blocks to write.

use random::Random;
use reference::transform;

/// Words at the edges of integers and of float patterns.
const SPECIAL: [u32; 30] = [
    0,
    1,
    2,
    3,
    0x80,
    0xFFFF_FFFF,
    0xFFFF_FFFE,
    0x7FFF_FFFF,
    0x8000_0000,
    0x8000_0001,
    0x4000_0000,
    0x3FFF_FFFF,
    0xC000_0000,
    0xC000_0001,
    0x5555_5555,
    0xAAAA_AAAA,
    0xAAAA_AAAB,
    0x007F_FFFF,
    0x0080_0000,
    0x0080_0001,
    0x807F_FFFF,
    0x3F80_0000,
    0xBF80_0000,
    0x7F7F_FFFF,
    0xFF7F_FFFF,
    0x7F80_0000,
    0xFF80_0000,
    0x7FC0_0000,
    0xFFC0_0000,
    0x7F80_0001,
];

const SIGN: u32 = 0x8000_0000;
const FRACTION: u32 = 0x007F_FFFF;

/// A way of making blocks: its name and the function.
pub type Maker = (&'static str, fn(&mut Random, usize) -> Vec<u32>);

/// All of the ways.
pub const MAKERS: [Maker; 18] = [
    ("any words", |random, n| every(random, n, |random, _| random.word())),
    ("special words", |random, n| every(random, n, |random, _| random.pick(&SPECIAL))),
    ("equal words", |random, n| {
        let word = if random.once_in(2) { random.word() } else { random.pick(&SPECIAL) };
        vec![word; n]
    }),
    ("powers of two and their neighbours", powers),
    ("smooth integers", smooth_integers),
    ("integers of one magnitude", |random, n| {
        let shift = random.word_below(32);
        every(random, n, |random, _| (random.word() as i32 >> shift) as u32)
    }),
    ("integers of every magnitude", |random, n| {
        every(random, n, |random, _| (random.word() as i32 >> random.word_below(32)) as u32)
    }),
    ("sparse words", |random, n| {
        every(random, n, |random, _| if random.once_in(6) { random.pick(&SPECIAL) } else { 0 })
    }),
    ("readings of a probe", readings),
    ("smooth floats", smooth_floats),
    ("whole numbers as floats", |random, n| {
        let shift = random.word_below(31);
        every(random, n, |random, _| ((random.word() as i32 >> shift) as f32).to_bits())
    }),
    ("floats of few fraction bits", |random, n| {
        let field = random.word_below(252);
        every(random, n, |random, _| {
            (field + random.word_below(3)) << 23 | random.word() & (SIGN | 0x0070_0000)
        })
    }),
    ("floats with every exponent", |random, n| {
        every(random, n, |random, _| random.word_below(256) << 23 | random.word() & (SIGN | FRACTION))
    }),
    ("finite floats near a largest exponent", |random, n| {
        let field = random.word_below(255);
        near(random, n, field)
    }),
    ("finite floats near a low exponent", |random, n| {
        let field = random.word_below(36);
        near(random, n, field)
    }),
    ("subnormal numbers and zeros", |random, n| {
        let shift = random.between(9, 31);
        every(random, n, |random, _| random.word() & SIGN | random.word() >> shift)
    }),
    ("whole multiples at the edge", multiples),
    ("codes near the longest", longest),
];

/// A block of n words, each made for its place.
fn every(random: &mut Random, n: usize, make: impl Fn(&mut Random, u32) -> u32) -> Vec<u32> {
    (0..n).map(|place| make(random, place as u32)).collect()
}

fn powers(random: &mut Random, n: usize) -> Vec<u32> {
    every(random, n, |random, _| {
        let word = (1u32 << random.word_below(32)).wrapping_add(random.word_below(3)).wrapping_sub(1);
        if random.once_in(2) { word } else { word.wrapping_neg() }
    })
}

fn smooth_integers(random: &mut Random, n: usize) -> Vec<u32> {
    let (a, b, c) = (random.word() >> 2, random.word() >> 12, random.word() >> 20);
    every(random, n, |random, place| {
        let [i, j, k, l] = [1, 4, 16, 64].map(|stride| place / stride % 4);
        let line = a.wrapping_add(b.wrapping_mul(i + k));
        line.wrapping_sub(c.wrapping_mul(j * j + l * l)).wrapping_add(random.word_below(8))
    })
}

/// Temperatures of a cabinet in tenths of a degree, as integers or as floats.
fn readings(random: &mut Random, n: usize) -> Vec<u32> {
    let start = random.between(0, 120) as i32 - 40;
    let as_floats = random.once_in(2);
    every(random, n, |random, place| {
        let tenths = start + random.word_below(4) as i32 - (place % 4) as i32;
        if as_floats { (tenths as f32 / 10.0).to_bits() } else { tenths as u32 }
    })
}

fn smooth_floats(random: &mut Random, n: usize) -> Vec<u32> {
    let scale = f32::from_bits(random.between(1, 250) << 23);
    let slope = random.word_below(1000) as f32 / 4000.0;
    every(random, n, |_, place| {
        (scale * (1.0 + slope * (place % 4) as f32 - place as f32 / (4 * n) as f32)).to_bits()
    })
}

/// Finite floats whose exponent fields are at most `field`, the first one's being that.
fn near(random: &mut Random, n: usize, field: u32) -> Vec<u32> {
    every(random, n, |random, place| {
        let down = if place == 0 { 0 } else { random.word_below(40) };
        field.saturating_sub(down) << 23 | random.word() & (SIGN | FRACTION)
    })
}

/// A value `down` binades below the largest is a whole multiple if its fraction ends at bit down - 6 or above it.
/// Now and then one ends a bit lower.
fn multiples(random: &mut Random, n: usize) -> Vec<u32> {
    let field = random.between(1, 254);
    every(random, n, |random, place| {
        let down = if place == 0 { 0 } else { random.word_below(30.min(field)) };
        let last = down.saturating_sub(if random.once_in(40) { 7 } else { 6 });
        random.word() & SIGN | (field - down) << 23 | (random.word() | 1) << last & FRACTION
    })
}

/// Coefficients with many ones.
fn longest(random: &mut Random, n: usize) -> Vec<u32> {
    let dimension = n.ilog(4);
    let step = if random.once_in(2) { transform::sums } else { transform::unlift };
    let shift = random.word_below(32);
    let coefficients = every(random, n, |random, _| (u32::MAX ^ 1 << random.word_below(32)) << shift);
    transform::from_coefficients(&coefficients, dimension, step)
}

/// A block made in any way.
pub fn any_block(random: &mut Random, n: usize) -> Vec<u32> {
    let (_, make) = random.pick(&MAKERS);
    make(random, n)
}

/// A finite block of floats whose largest exponent field is `field`: whole multiples or any fractions.
pub fn block_of_field(random: &mut Random, n: usize, field: u32) -> Vec<u32> {
    let bits = random.between(0, 23);
    let spread = random.pick(&[1, 3, 8, 40]);
    every(random, n, |random, place| {
        let down = if place == 0 { 0 } else { random.word_below(spread) };
        let fraction = random.word() & FRACTION & FRACTION << (23 - bits);
        let block_begins = place == 0 && field == 0;
        // The first word is not 0, so that the block is not all zeros.
        let fraction = if block_begins { fraction | 0x0040_0000 } else { fraction };
        random.word() & SIGN | field.saturating_sub(down) << 23 | fraction
    })
}
