//! The blocks that are drawn.

use crate::block_len;
use crate::climb::climbed;
use crate::digits::aimed;
use random::Random;

/// What the values of a block are like.
#[derive(Clone, Copy, Debug, PartialEq, Eq)]
pub enum Class {
    /// Readings in tenths of a degree that change by a tenth or two from one place to the next.
    Readings,
    /// Any patterns with one exponent.
    Equal,
    /// Any patterns, their exponents up to 252 apart.
    Mixed,
    /// One value, the others zero or far smaller.
    One,
    /// Subnormal values.
    Subnormal,
    /// The largest magnitude of an exponent, with signs.
    Signs,
    /// Dropped digits that push one way.
    Digits,
    /// The worst of some blocks, changed step by step as long as its error grows.
    Climbed,
}

impl Class {
    /// All of them.
    pub const ALL: [Class; 8] = [
        Class::Readings,
        Class::Equal,
        Class::Mixed,
        Class::One,
        Class::Subnormal,
        Class::Signs,
        Class::Digits,
        Class::Climbed,
    ];

    /// As the tables have it.
    pub fn name(self) -> &'static str {
        match self {
            Class::Readings => "readings in tenths of a degree",
            Class::Equal => "any patterns of one exponent",
            Class::Mixed => "any patterns, exponents apart",
            Class::One => "one value, the others far smaller or zero",
            Class::Subnormal => "subnormal values",
            Class::Signs => "largest magnitudes, signs of all sorts",
            Class::Digits => "dropped digits that push one value the same way",
            Class::Climbed => "the worst of 16 blocks, changed as long as the error grows",
        }
    }

    /// A block that is to be coded in k planes, not all zero.
    pub fn draw(self, random: &mut Random, d: u32, k: i32) -> Vec<u32> {
        match self {
            Class::Readings => readings(random, d),
            Class::Equal => equal(random, d),
            Class::Mixed => mixed(random, d),
            Class::One => one(random, d),
            Class::Subnormal => (0..block_len(d)).map(|_| random.word() & 0x807F_FFFF | 1).collect(),
            Class::Signs => signs(random, d),
            Class::Digits if k > 0 => aimed(random, d, k).unwrap_or_else(|| equal(random, d)),
            Class::Digits => equal(random, d),
            Class::Climbed => climbed(random, d, k),
        }
    }
}

/// An exponent field of normal numbers with which nothing that is read overflows: m is at most 126.
pub fn field(random: &mut Random) -> u32 {
    random.between(1, 252)
}

/// A number from -1 to 1.
pub fn fraction(random: &mut Random) -> f64 {
    2.0 * random.part() - 1.0
}

/// Readings in tenths of a degree, from -80.0 to 60.0, that change by at most a tenth along each axis, now and then by one more.
pub fn tenths(random: &mut Random, d: u32) -> Vec<i32> {
    let mut tenths = vec![random.word_below(1401) as i32 - 800; block_len(d)];
    for axis in 0..d {
        let mut along = 0;
        let steps = [0; 4].map(|_: i32| {
            along += random.word_below(3) as i32 - 1;
            along
        });
        for (place, reading) in tenths.iter_mut().enumerate() {
            *reading += steps[place / 4usize.pow(axis) % 4];
        }
    }
    for reading in &mut tenths {
        *reading += i32::from(random.once_in(8));
    }
    tenths
}

/// The same as floats in degrees, not all zero.
pub fn readings(random: &mut Random, d: u32) -> Vec<u32> {
    let mut tenths = tenths(random, d);
    if tenths.iter().all(|&reading| reading == 0) {
        tenths[0] = 1;
    }
    tenths.iter().map(|&reading| (reading as f32 / 10.0).to_bits()).collect()
}

fn equal(random: &mut Random, d: u32) -> Vec<u32> {
    let field = field(random) << 23;
    (0..block_len(d)).map(|_| random.word() & 0x807F_FFFF | field).collect()
}

fn mixed(random: &mut Random, d: u32) -> Vec<u32> {
    let field = field(random);
    let apart = random.pick(&[2, 8, 12, 40, 252]).min(field);
    let mut word = |apart: u32| {
        let field = field - random.word_below(apart);
        random.word() & 0x807F_FFFF | field << 23
    };
    let mut words: Vec<u32> = (0..block_len(d)).map(|_| word(apart)).collect();
    words[0] = word(1);
    let place = random.below(words.len());
    words.swap(0, place);
    words
}

fn one(random: &mut Random, d: u32) -> Vec<u32> {
    let large = field(random);
    // Down to the size at which integers become 0.
    let smaller = large.saturating_sub(random.between(1, 34));
    let zero = random.once_in(3);
    let mut small = || if zero { 0 } else { random.word() & 0x807F_FFFF | smaller << 23 };
    let mut words: Vec<u32> = (0..block_len(d)).map(|_| small()).collect();
    let place = random.below(words.len());
    words[place] = random.word() & 0x807F_FFFF | large << 23;
    words
}

/// Signs that are drawn, or products of those of a line; sometimes the magnitudes are a little smaller.
fn signs(random: &mut Random, d: u32) -> Vec<u32> {
    let largest = field(random) << 23 | 0x7F_FFFF;
    let lines: Vec<u32> = (0..d).map(|_| random.word_below(16)).collect();
    let products = random.once_in(2);
    let smaller = random.pick(&[0, 0, 0xF, 0xFFFF, 0x3F_FFFF]);
    let product = |place: usize| {
        let sign = |axis: usize| lines[axis] >> (place / 4usize.pow(axis as u32) % 4) & 1;
        (0..lines.len()).map(sign).sum::<u32>() % 2
    };
    let mut word = |place| {
        let sign = if products { product(place) } else { random.word_below(2) };
        (largest - (random.word() & smaller)) | sign << 31
    };
    (0..block_len(d)).map(&mut word).collect()
}
