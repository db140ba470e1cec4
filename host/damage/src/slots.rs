//! Damaged slots.

use crate::{Tally, tenths};
use random::Random;
use windlassow::{Kind, Params, read, store};

/// The blocks of an archive.
const BLOCKS: usize = 1_000;

/// The bytes of an archive that are changed.
const BYTES: usize = 60;

/// An archive of readings, as it was written.
struct Archive {
    params: Params,
    blocks: Vec<[u32; 4]>,
    bytes: Vec<u8>,
}

impl Archive {
    fn new(params: Params, random: &mut Random) -> Archive {
        let word = |tenths: &u32| match params.kind() {
            Ok(Kind::Floats) => (*tenths as f32 / 10.0).to_bits(),
            _ => *tenths,
        };
        let words: Vec<u32> = tenths(random, 4 * BLOCKS).iter().map(word).collect();
        let blocks: Vec<[u32; 4]> =
            words.chunks_exact(4).map(|block| [block[0], block[1], block[2], block[3]]).collect();
        let mut bytes = vec![0; params.archive_len(BLOCKS).expect("the archive is short enough")];
        for (slot, block) in blocks.iter().enumerate() {
            store(params, &mut bytes, slot, block).expect("every block fits");
        }
        Archive { params, blocks, bytes }
    }

    fn width(&self) -> usize {
        self.params.slot_bits().expect("the parameters are good")
    }

    /// Whether a bit of the slot is another than the one written.
    fn is_damaged(&self, after: &[u8], slot: usize) -> bool {
        let bits = slot * self.width()..(slot + 1) * self.width();
        bits.into_iter().any(|t| (self.bytes[t / 8] ^ after[t / 8]) >> (t % 8) & 1 == 1)
    }

    /// Reads every damaged slot and counts what comes of it.
    fn count(&self, after: &[u8], tally: &mut Tally) {
        for (slot, block) in self.blocks.iter().enumerate().filter(|(slot, _)| self.is_damaged(after, *slot))
        {
            let mut words = [0; 4];
            tally.damaged += 1;
            match read(self.params, after, slot, &mut words) {
                Err(refusal) => {
                    assert_eq!(refusal.number(), 11);
                    tally.refused += 1;
                }
                Ok(_) => tally.other += usize::from(words != *block),
            }
        }
    }
}

/// Some archives, each damaged by `damage`.
fn damaged(
    params: Params,
    archives: usize,
    seed: u64,
    damage: impl Fn(&mut Random, &Archive) -> Vec<u8>,
) -> Tally {
    let mut random = Random::new(seed);
    let mut tally = Tally::default();
    for _ in 0..archives {
        let archive = Archive::new(params, &mut random);
        archive.count(&damage(&mut random, &archive), &mut tally);
    }
    tally
}

/// Sixty bytes of each archive become others.
pub fn bytes_changed(params: Params, archives: usize) -> Tally {
    damaged(params, archives, 1, |random, archive| {
        let mut bytes = archive.bytes.clone();
        for _ in 0..BYTES {
            let place = random.below(bytes.len());
            bytes[place] ^= random.between(1, 255) as u8;
        }
        bytes
    })
}

/// One bit of each slot becomes the other one.
pub fn bits_changed(params: Params, archives: usize) -> Tally {
    damaged(params, archives, 2, |random, archive| {
        let mut bytes = archive.bytes.clone();
        for slot in 0..BLOCKS {
            let t = slot * archive.width() + random.below(archive.width());
            bytes[t / 8] ^= 1 << (t % 8);
        }
        bytes
    })
}

/// All bits of each slot are drawn.
pub fn noise(params: Params, archives: usize) -> Tally {
    damaged(params, archives, 3, |random, archive| random.bytes(archive.bytes.len()))
}

/// All bits of each slot of an archive are 0.
pub fn zeros(params: Params) -> Tally {
    damaged(params, 1, 4, |_, archive| vec![0; archive.bytes.len()])
}
