//! The largest values: what is read can overflow to an infinity.

use crate::error::{Slot, lowest};
use crate::{ALL_PLANES, DIMENSIONS, block_len};
use random::Random;

/// How many blocks there were, and how many of them came back with an infinity.
#[derive(Clone, Copy, Debug, Default)]
pub struct Ends {
    /// Blocks.
    pub blocks: usize,
    /// With an infinity.
    pub infinite: usize,
    /// The smallest magnitude that came back as an infinity, as a part of 2^m.
    pub smallest: Option<f64>,
}

/// Blocks of the largest magnitudes with exponent m, 126, 127 or 128, at each k from `first` to `last` that a dimension has.
pub fn ends(m: i32, k: impl Fn(u32) -> (i32, i32), blocks: usize) -> Ends {
    let mut random = Random::new(m as u64);
    let mut ends = Ends::default();
    for d in DIMENSIONS {
        let mut slot = Slot::new(d);
        let (first, last) = k(d);
        for k in first..=last {
            for _ in 0..blocks {
                count(&mut slot, &block(&mut random, d, m), d, k, &mut ends);
            }
        }
    }
    ends
}

fn count(slot: &mut Slot, words: &[u32], d: u32, k: i32, ends: &mut Ends) {
    let m = crate::error::exponent(words);
    let back = slot.back(words, lowest(d, words, k), k.clamp(0, ALL_PLANES) as u32);
    let infinite = words.iter().zip(back).filter(|(_, back)| f32::from_bits(**back).is_infinite());
    let magnitude = |word: u32| f64::from(f32::from_bits(word).abs()) / 2f64.powi(m);
    let smallest = infinite.map(|(&word, _)| magnitude(word)).reduce(f64::min);
    ends.blocks += 1;
    ends.infinite += usize::from(smallest.is_some());
    ends.smallest = [ends.smallest, smallest].into_iter().flatten().reduce(f64::min);
}

/// Magnitudes of one exponent, the largest or any, of one sign or of both, some of them 0.
fn block(random: &mut Random, d: u32, m: i32) -> Vec<u32> {
    let largest = ((m + 126) as u32) << 23 | 0x7F_FFFF;
    let smaller = random.pick(&[0, 0xFF, 0x7_FFFF, 0x7F_FFFF]);
    let signs = random.pick(&[0, 0x8000_0000]);
    let zeros = random.once_in(2);
    let mut word = |place| {
        let word = (largest - (random.word() & smaller)) | random.word() & signs;
        if place > 0 && zeros && random.once_in(2) { 0 } else { word }
    };
    let mut words: Vec<u32> = (0..block_len(d)).map(&mut word).collect();
    let place = random.below(words.len());
    words.swap(0, place);
    words
}
