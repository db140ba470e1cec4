//! Both calls on the same input, and what must hold of their outcome.

use crate::common::*;
use crate::cuts::{planes_of, slot_bits};
use reference::{Params, Reply, bits};
use windlassow::{Done, MAX_WIDTH, MIN_WIDTH};

pub const NO_WORD: u32 = 0xDEAD_BEEF;

/// Every combination of kind, dimension and mode.
pub fn all_kinds() -> impl Iterator<Item = (u32, u32, u32)> {
    (0..16).map(|k| (k & 1, 1 + (k >> 2), k >> 1 & 1))
}

/// Every good width: 0 and 16 to 8,462.
pub fn all_widths() -> impl Iterator<Item = u32> {
    std::iter::once(0).chain(MIN_WIDTH..=MAX_WIDTH)
}

/// Stores with both, compares the whole of the archives, and looks at the rules that need no comparison: a
/// refused store changes nothing, a done one only its own slot, and the planes can be told from the slot. Gives the reply
/// and the archive after it.
pub fn compare_store(p: &Params, archive: &[u8], slot: usize, words: &[u32]) -> (Reply, Vec<u8>) {
    let mut expected = archive.to_vec();
    let reply_expected = reference::store(p, &mut expected, slot, words);
    let mut buffer = Guarded::new(archive, 0x5A);
    let lent = Guarded::new(words, NO_WORD);
    let given = reply(windlassow::store(ours(p), &mut buffer, slot, &lent));
    assert_eq!(given, reply_expected, "store {p:?} slot {slot} words {words:x?}");
    assert!(*buffer == *expected, "archive after store {p:?} slot {slot} words {words:x?}");
    assert!(buffer.is_intact() && lent.is_unchanged());
    if given.answer != 0 {
        assert!(buffer.is_unchanged(), "a refused store changed the archive");
    } else {
        only_the_slot_changed(archive, &buffer, slot * width_of(p), width_of(p));
        assert_eq!(given.planes, planes_of(p, &slot_bits(p, &buffer, slot)), "planes {p:?} words {words:x?}");
    }
    (given, expected)
}

pub fn only_the_slot_changed(before: &[u8], after: &[u8], start: usize, width: usize) {
    let end = start + width;
    let outside = |byte: usize| -> u8 {
        (0..8).filter(|k| !(start..end).contains(&(8 * byte + k))).map(|k| 1 << k).sum()
    };
    for byte in start / 8..end.div_ceil(8) {
        assert_eq!((before[byte] ^ after[byte]) & outside(byte), 0, "a neighbour changed");
    }
    assert!(before[..start / 8] == after[..start / 8]);
    assert!(before[end.div_ceil(8)..] == after[end.div_ceil(8)..]);
}

/// Reads with both into buffers of that length, compares reply and words. The planes can be told from the slot.
pub fn compare_read(p: &Params, archive: &[u8], slot: usize, len: usize) -> (Reply, Vec<u32>) {
    let mut expected = vec![NO_WORD; len];
    let reply_expected = reference::read(p, archive, slot, &mut expected);
    let lent = Guarded::new(archive, 0x5A);
    let mut buffer = Guarded::new(&vec![NO_WORD; len], NO_WORD);
    let given = reply(windlassow::read(ours(p), &lent, slot, &mut buffer));
    assert_eq!(given, reply_expected, "read {p:?} slot {slot} {}", shown_slot(p, archive, slot));
    assert!(*buffer == *expected, "words of read {p:?} slot {slot} {}", shown_slot(p, archive, slot));
    assert!(buffer.is_intact() && lent.is_unchanged());
    if given.answer == 0 {
        let shown = || shown_slot(p, archive, slot);
        assert_eq!(given.planes, planes_of(p, &slot_bits(p, archive, slot)), "planes {p:?} {}", shown());
    }
    (given, expected)
}

pub fn shown_slot(p: &Params, archive: &[u8], slot: usize) -> String {
    let width = width_of(p);
    let end = slot.saturating_add(1).saturating_mul(width);
    if end > 8 * archive.len() {
        return "outside".to_string();
    }
    (end - width..end).map(|t| if bits::get(archive, t) { '1' } else { '0' }).collect()
}

pub fn compare_counts(p: &Params, archive: &[u8], words: &[u32]) -> [Reply; 2] {
    let slots = windlassow::slot_count(ours(p), archive).map(|count| Done { count, planes: 0 });
    let slots = reply(slots);
    assert_eq!(slots, reference::slot_count(p, archive), "slot count {p:?} of {} bytes", archive.len());
    let bits = reply(windlassow::bit_count(ours(p), words));
    assert_eq!(bits, reference::bit_count(p, words), "bit count {p:?} words {words:x?}");
    [slots, bits]
}

/// A store, the bit count and the read of what was stored. An exact block must come back, and all three have the same planes.
pub fn compare_all(p: &Params, archive: &[u8], slot: usize, words: &[u32]) -> Reply {
    let (stored, after) = compare_store(p, archive, slot, words);
    let [_, counted] = compare_counts(p, archive, words);
    if stored.answer == 0 || stored.answer == 10 {
        assert_eq!(counted.count, stored.count, "bit count and store differ: {p:?} {words:x?}");
    }
    let (given, back) = compare_read(p, &after, slot, words.len());
    if stored.answer == 0 {
        assert_eq!(counted.planes, stored.planes, "planes of bit count and store differ: {p:?} {words:x?}");
        assert_eq!(given.planes, stored.planes, "planes of read and store differ: {p:?} {words:x?}");
    }
    if p.mode == EXACT && stored.answer == 0 {
        assert_eq!(back, words, "an exact block came back otherwise: {p:?}");
    }
    stored
}
