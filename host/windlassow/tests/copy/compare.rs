//! Both copies of the same archive, and what must hold of their outcome.

use crate::common::*;
use crate::make::*;
use reference::{Params, Reply, bits};
use windlassow::{MAX_WIDTH, Refusal};

/// Every kind and dimension.
pub fn all_kinds() -> impl Iterator<Item = (u32, u32)> {
    (0..8).map(|k| (k & 1, 1 + (k >> 1)))
}

/// Exact parameters.
pub fn exact(kind: u32, dimension: u32, width: u32) -> Params {
    Params { kind, dimension, mode: EXACT, planes: 32, width, lowest: MIN_LOWEST }
}

/// The outcome of the library's copy in the shape of the reference's. The interface sees to it that there are 0 planes.
pub fn copy_reply(outcome: Result<usize, Refusal>) -> Reply {
    match outcome {
        Ok(count) => Reply::done(count, 0),
        Err(Refusal::UnreadableSlot { slot }) => Reply::needs(11, slot),
        Err(refusal) => Reply::refused(refusal.number()),
    }
}

/// Copies with both, compares the replies and the whole of the new archives, and looks at the rules that need no comparison.
/// Gives the reply and the new archive after it.
pub fn compare_copy(p: &Params, archive: &[u8], new: &[u8]) -> (Reply, Vec<u8>) {
    let what = || format!("{p:?}, {} bytes to {}: {archive:x?}", archive.len(), new.len());
    let mut expected = new.to_vec();
    let reply_expected = reference::copy(p, archive, &mut expected);
    let lent = Guarded::new(archive, 0x5A);
    let mut buffer = Guarded::new(new, 0xC3);
    let given = copy_reply(windlassow::copy(ours(p), &lent, &mut buffer));
    assert_eq!(given, reply_expected, "{}", what());
    assert!(*buffer == *expected, "new archive of {}", what());
    assert!(buffer.is_intact() && lent.is_unchanged(), "{}", what());
    match given.answer {
        0 => is_a_copy(p, archive, new, &buffer, given.count as usize),
        _ => assert!(buffer.is_unchanged(), "a refused copy changed the new archive: {}", what()),
    }
    if given.answer == 11 {
        is_the_first_unreadable(p, archive, given.count as usize);
    }
    (given, expected)
}

/// A slot as the library reads it.
pub fn read(p: &Params, archive: &[u8], slot: usize) -> (Reply, Vec<u32>) {
    let mut words = vec![0xDEAD_BEEF; block_len(p)];
    (reply(windlassow::read(ours(p), archive, slot, &mut words)), words)
}

/// On the library alone: all slots of the old archive were copied, each reads from the new one as it does from the old one, and
/// all other bits are as before.
fn is_a_copy(p: &Params, archive: &[u8], before: &[u8], after: &[u8], count: usize) {
    assert_eq!(count, 8 * archive.len() / width_of(p), "{p:?}");
    let full = Params { width: 0, ..*p };
    for slot in 0..count {
        let old = read(p, archive, slot);
        assert_eq!((old.0.answer, &old), (0, &read(&full, after, slot)), "{p:?} slot {slot}");
    }
    let end = count * full_width(p);
    let kept = |t| bits::get(before, t) == bits::get(after, t);
    assert!((end..8 * before.len()).all(kept), "{p:?}: a bit past {count} slots changed");
}

/// On the library alone: that slot cannot be read, and all before it can.
fn is_the_first_unreadable(p: &Params, archive: &[u8], first: usize) {
    let answers: Vec<u32> = (0..=first).map(|slot| read(p, archive, slot).0.answer).collect();
    assert!(answers[first] == 11 && answers[..first].iter().all(|&answer| answer == 0), "{p:?}: {answers:?}");
}

/// A width of any size: 0, 8N, the narrowest, those around what every exact block fits, the widest, and any.
pub fn any_width_of(random: &mut Random, dimension: u32) -> u32 {
    let n = 4u32.pow(dimension);
    let around = 33 * n + random.pick(&[3, 4, 5, 13, 14, 15]);
    let any = any_width(random, dimension);
    random.pick(&[0, 8 * n, 16, 17, around, around, around, MAX_WIDTH, any, any, any]).min(MAX_WIDTH)
}

/// An archive of just so many slots, each with a block that fits it. The bits past them are any.
pub fn archive_of_blocks(random: &mut Random, p: &Params, slots: usize) -> Vec<u8> {
    let mut archive = random.bytes((slots * width_of(p)).div_ceil(8));
    for slot in 0..slots {
        // Of equal words more fit a narrow slot.
        let fits = (0..6).any(|_| {
            let maker = if random.once_in(3) { 2 } else { random.below(MAKERS) };
            let words = block(random, maker, block_len(p));
            windlassow::store(ours(p), &mut archive, slot, &words).is_ok()
        });
        if !fits {
            windlassow::store(ours(p), &mut archive, slot, &vec![0; block_len(p)]).expect("zeros fit");
        }
    }
    archive
}

/// A new archive of that length, full of zeros, of ones or of any bits.
pub fn new_archive(random: &mut Random, len: usize) -> Vec<u8> {
    match random.below(4) {
        0 => vec![0; len],
        1 => vec![0xFF; len],
        _ => random.bytes(len),
    }
}

/// The least bytes that hold so many full slots.
pub fn room(p: &Params, slots: usize) -> usize {
    (slots * full_width(p)).div_ceil(8)
}
