//! A row of slots, put together and taken apart bit by bit.

use random::Random;
use windlassow::{Dimension, Params, bit_count, read, store};

/// The dimension of a number.
pub fn dimension(number: u32) -> Dimension {
    [Dimension::One, Dimension::Two, Dimension::Three, Dimension::Four][number as usize - 1]
}

/// The parameters of a file.
pub fn params(kind: &str, number: u32, width: u32) -> Params {
    match kind {
        "integers" => Params::exact_integers(dimension(number)),
        _ => Params::exact_floats(dimension(number)),
    }
    .with_width(width)
}

/// The slots of a run, as the program's documentation has it.
pub fn run_slots(params: Params) -> usize {
    let full = params.with_width(0).slot_bits().unwrap();
    8 * (65_536 / params.slot_bits().unwrap().max(full))
}

/// Bits in order; bit 0 is the lowest of the first byte.
#[derive(Default)]
pub struct Row(Vec<bool>);

impl Row {
    /// The blocks in slots one after the other.
    pub fn of(params: Params, blocks: &[Vec<u32>]) -> Row {
        let mut row = Row::default();
        for block in blocks {
            let mut slot = vec![0; params.archive_len(1).unwrap()];
            store(params, &mut slot, 0, block).expect("the block fits");
            row.0.extend((0..params.slot_bits().unwrap()).map(|place| bit(&slot, place)));
        }
        row
    }

    /// Puts ones into a slot, which no block has.
    pub fn spoil(&mut self, params: Params, slot: usize) {
        let width = params.slot_bits().unwrap();
        self.0[slot * width..][..width].fill(true);
        assert_eq!(block(params, &self.bytes(false), slot), None, "ones can be read");
    }

    /// More bits, all of them one.
    pub fn lengthen(&mut self, bits: usize) {
        self.0.resize(self.0.len() + bits, true);
    }

    /// The bytes, the last one filled up with this bit.
    pub fn bytes(&self, rest: bool) -> Vec<u8> {
        let byte =
            |bits: &[bool]| (0..8).map(|place| u8::from(*bits.get(place).unwrap_or(&rest)) << place).sum();
        self.0.chunks(8).map(byte).collect()
    }
}

fn bit(bytes: &[u8], place: usize) -> bool {
    bytes[place / 8] >> (place % 8) & 1 == 1
}

/// The block of a slot of a row of any length, if it can be read: its bits are moved to an archive of one slot.
pub fn block(params: Params, bytes: &[u8], slot: usize) -> Option<Vec<u32>> {
    let width = params.slot_bits().unwrap();
    let mut alone = vec![0; width.div_ceil(8)];
    for place in 0..width {
        alone[place / 8] |= u8::from(bit(bytes, slot * width + place)) << (place % 8);
    }
    let mut words = vec![0; params.block_len().unwrap()];
    read(params, &alone, 0, &mut words).is_ok().then_some(words)
}

/// So many blocks that fit their slots: any words, readings near each other, equal ones or zeros.
pub fn blocks(params: Params, count: usize, seed: u64) -> Vec<Vec<u32>> {
    let mut random = Random::new(seed);
    (0..count).map(|_| fitting(params, &mut random)).collect()
}

fn fitting(params: Params, random: &mut Random) -> Vec<u32> {
    let len = params.block_len().unwrap();
    let width = params.slot_bits().unwrap();
    let fits = |block: &Vec<u32>| bit_count(params, block).unwrap().count <= width;
    let first = random.below(3);
    let base = random.word();
    let draws: [&mut dyn FnMut(&mut Random) -> u32; 4] = [
        &mut |random| random.word(),
        &mut |random| (base >> 12) + random.word_below(9),
        &mut |_| base & 0xC0F0_0000,
        &mut |_| 0,
    ];
    let mut found = draws.into_iter().skip(first).map(|draw| (0..len).map(|_| draw(random)).collect());
    found.find(fits).expect("zeros fit every slot")
}
