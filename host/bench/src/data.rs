//! The blocks and the doubles that are stored and read.

use random::Random;
use windlassow::{Dimension, Kind, MAX_ARCHIVE_LEN};

/// What the values are like.
#[derive(Clone, Copy, PartialEq)]
pub enum Data {
    /// Readings that change slowly, with a little noise.
    Smooth,
    /// Any values; floats are finite and their exponents differ by up to 60.
    Random,
}

impl Data {
    /// Its name in the tables.
    pub fn name(self) -> &'static str {
        match self {
            Data::Smooth => "smooth",
            Data::Random => "random",
        }
    }
}

/// A temperature that changes slowly: the place i + 4j + 16k + 64l of some block.
fn reading(random: &mut Random, block: usize, place: usize) -> f64 {
    let [i, j, k, l] = [1, 4, 16, 64].map(|stride| (place / stride % 4) as f64);
    let along = block as f64 * 0.11 + i * 0.05 + j * 0.07 + k * 0.03 + l * 0.04;
    20.0 + 3.0 * along.sin() + 0.02 * random.part()
}

/// All of them.
pub const DIMENSIONS: [Dimension; 4] = [Dimension::One, Dimension::Two, Dimension::Three, Dimension::Four];

/// The most blocks of an archive that is measured: enough that the processor does not learn their branches.
const MOST: usize = 256;

/// The blocks that an archive of the longest length takes, up to 256.
pub fn blocks_in_archive(width: usize) -> usize {
    (8 * MAX_ARCHIVE_LEN / width).min(MOST)
}

/// The words of so many blocks, one after the other. Smooth integers are readings in thousandths of a degree.
pub fn blocks(kind: Kind, dimension: Dimension, data: Data, count: usize) -> Vec<u32> {
    let mut random = Random::new(count as u64);
    let len = dimension.block_len();
    let mut words = Vec::with_capacity(count * len);
    for place in 0..count * len {
        let (block, place) = (place / len, place % len);
        words.push(match (kind, data) {
            (Kind::Integers, Data::Smooth) => (1000.0 * reading(&mut random, block, place)) as u32,
            (Kind::Integers, Data::Random) => random.bits() as u32,
            (Kind::Floats, Data::Smooth) => (reading(&mut random, block, place) as f32).to_bits(),
            (Kind::Floats, Data::Random) => {
                let bits = random.bits();
                (bits as u32 & 0x807F_FFFF) | (97 + (bits >> 40) as u32 % 61) << 23
            }
        });
    }
    words
}

/// The patterns of so many doubles.
pub fn doubles(data: Data, count: usize) -> Vec<u64> {
    let mut random = Random::new(count as u64);
    let thousandths = |reading: f64| (1000.0 * reading).round() / 1000.0;
    (0..count)
        .map(|place| match data {
            Data::Smooth => thousandths(reading(&mut random, place, 0)).to_bits(),
            Data::Random => random.bits(),
        })
        .collect()
}
