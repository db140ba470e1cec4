//! Slots to read that no store has written.

use crate::bits::padded;
use crate::cuts::{Place, cut_at};
use random::Random;
use reference::bits::number;
use reference::params::{Checked, Kind, Mode};
use reference::planes;

/// Random bits, few or many of them ones, in the whole slot or at its beginning.
pub fn random_slot(random: &mut Random, width: usize) -> Vec<bool> {
    let often = random.pick(&[1, 2, 2, 3, 5, 10, 40]);
    let end = if random.once_in(2) { width } else { random.below(width + 1) };
    let bits: Vec<bool> = (0..end).map(|t| random.once_in(often) || t == 0 && random.once_in(2)).collect();
    padded(&bits, width)
}

/// A good head, then the code of any coefficients, cut to the slot.
pub fn headed_slot(random: &mut Random, p: &Checked) -> Vec<bool> {
    let any = random.word_below(256);
    let e = random.pick(&[any, any, any, 0, 1, 6, 7, 8, 9, 28, 29, 30, 31, 254, 255]);
    slot_of_e(random, p, e)
}

/// The same with this e, if the slot has one.
pub fn slot_of_e(random: &mut Random, p: &Checked, e: u32) -> Vec<bool> {
    let mut slot = Vec::new();
    if p.kind == Kind::Floats {
        slot.push(true);
        let flipped = p.mode == Mode::Exact && random.once_in(3);
        if p.mode == Mode::Exact {
            slot.push(flipped);
        }
        if !flipped {
            slot.extend(number(e, 8));
        }
    }
    let mut count = p.planes;
    if p.mode == Mode::Exact {
        count = random.between(1, 32);
        slot.extend(number(count - 1, 5));
    }
    slot.extend(planes::code(&coefficients(random, p.block_len()), count));
    slot.truncate(p.width);
    padded(&slot, p.width)
}

/// A good head with this e, if there is one, then planes that end in a scan at this place. The slot is a lossy one.
pub fn slot_cut_at(random: &mut Random, p: &Checked, e: u32, place: Place) -> Vec<bool> {
    let mut slot = Vec::new();
    if p.kind == Kind::Floats {
        slot.push(true);
        slot.extend(number(e, 8));
    }
    let coefficients = cut_at(random, p.block_len(), place, p.width - slot.len());
    slot.extend(planes::code(&coefficients, p.planes));
    slot.truncate(p.width);
    slot
}

/// Negabinary words of some magnitude, some of them 0.
fn coefficients(random: &mut Random, n: usize) -> Vec<u32> {
    let (high, low) = (random.word_below(12), random.word_below(24));
    let often = random.between(1, 3);
    (0..n)
        .map(|_| if random.once_in(often as usize) { random.word() >> high >> low << low } else { 0 })
        .collect()
}

/// Turns over some bits of a slot.
pub fn damage(random: &mut Random, slot: &mut [bool]) {
    let count = random.pick(&[1, 1, 1, 2, 5, 30]);
    for _ in 0..count {
        let t = random.below(slot.len());
        slot[t] = !slot[t];
    }
}
