//! The copier of request M-105: worked examples, every refusal, and their order.

mod common;
use common::*;
use reference::bits::{get, set};
use reference::{Params, Reply, copy, read, store};

const GOOD: Params = Params { kind: 0, dimension: 1, mode: 1, planes: 32, width: 48, lowest: MIN_LOWEST };
const LONG: usize = 65_537;

/// 11 with the number of a slot.
fn unreadable(slot: u32) -> Reply {
    Reply { answer: 11, count: slot, planes: 0 }
}

/// A copy into a buffer of so many bytes A5, which is refused like this and changes nothing.
fn copy_refused(p: &Params, archive: &[u8], new_len: usize, reply: Reply) {
    let mut new = vec![0xA5; new_len];
    assert_eq!(copy(p, archive, &mut new), reply, "{p:?}, {} and {new_len} bytes", archive.len());
    assert!(new.iter().all(|&byte| byte == 0xA5));
}

/// Four zeros and four ones in slots of 48 bits, as P1 and P2 have them: 6 bits of zeros; 11111, 31 zeros, 110. The second new
/// slot starts at bit 146, bit 2 of byte 18, so its 11111 are the bits 2 to 6 there. 110 comes 36 bits after 146, at bit 182, bit 6
/// of byte 22. The slots end at bit 292, bit 4 of byte 36.
#[test]
fn zeros_and_ones() {
    let archive = [0, 0, 0, 0, 0, 0, 0x1F, 0, 0, 0, 0x30, 0];
    let mut new = [0xFF; 38];
    assert_eq!(copy(&GOOD, &archive, &mut new), done(2, 0));
    let mut expected = [0; 38];
    expected[18] = 0b0111_1100;
    expected[22] = 0b1100_0000;
    expected[36] = 0xF0;
    expected[37] = 0xFF;
    assert_eq!(new, expected);
}

/// Floats in slots of 21 bits: four times 1.0, 10 00000001 01000 0 110 10, P5, and a single 0.
#[test]
fn floats_of_narrow_slots() {
    let archive = bytes_of(&bits("100000000101000011010"), 6);
    let p = params(FLOATS, 1, EXACT, 1, 21);
    let mut new = [0xFF; 37];
    assert_eq!(copy(&p, &archive, &mut new), done(2, 0));
    let mut expected = [0; 37];
    expected[..3].copy_from_slice(&[0x01, 0x0A, 0x0B]);
    expected[36] = 0xF0;
    assert_eq!(new, expected);
}

/// Widths below, at and above 33N + 14, to a buffer of any bits: every block comes back from its own slot, and the bits past
/// the slots stay.
#[test]
fn blocks_come_back_from_slots_of_every_width() {
    let mut random = Random::new(105);
    for (dimension, n) in [(1, 4), (2, 16), (3, 64), (4, 256)] {
        let full = 33 * n as u32 + 14;
        for width in [0, 8 * n as u32, 40, full - 10, full - 1, full, full + 1, 8_462] {
            for kind in [INTEGERS, FLOATS] {
                let p = params(kind, dimension, EXACT, 32, width.min(8_462));
                let bits = p.check().unwrap().width;
                let mut archive = vec![0; (5 * bits).div_ceil(8)];
                let blocks = [0, 1, 2, 3, 4].map(|slot| {
                    let word = random.word();
                    let block: Vec<u32> = (0..n).map(|_| if slot == 1 { 0 } else { word }).collect();
                    let fits = store(&p, &mut archive, slot, &block).answer == 0;
                    if fits { block } else { vec![0; n] }
                });
                comes_back(&mut random, &p, &archive, &blocks);
            }
        }
    }
}

fn comes_back(random: &mut Random, p: &Params, archive: &[u8], blocks: &[Vec<u32>]) {
    let full = Params { width: 0, ..*p };
    let bits = full.check().unwrap().width;
    let spare = random.below(3 * bits / 8);
    let before = random.bytes((blocks.len() * bits).div_ceil(8) + spare);
    let mut new = before.clone();
    assert_eq!(copy(p, archive, &mut new), done(blocks.len() as u32, 0));
    for (slot, block) in blocks.iter().enumerate() {
        let mut words = vec![7; block.len()];
        assert_eq!(read(&full, &new, slot, &mut words).answer, 0);
        assert_eq!(words, *block);
    }
    assert!((blocks.len() * bits..8 * new.len()).all(|t| get(&new, t) == get(&before, t)));
}

/// An archive of no slots goes to any new one, also an empty one.
#[test]
fn no_slots() {
    for len in 0..6 {
        for new_len in [0, 1, 18, 19, 65_536] {
            let mut new = vec![0xA5; new_len];
            assert_eq!(copy(&GOOD, &vec![0xFF; len], &mut new), done(0, 0));
            assert!(new.iter().all(|&byte| byte == 0xA5));
        }
    }
}

#[test]
fn rows_1_to_5_and_13_alone() {
    let (archive, room) = ([0; 12], 37);
    for bad in [2, 3, u32::MAX] {
        copy_refused(&Params { kind: bad, ..GOOD }, &archive, room, refused(1));
        copy_refused(&Params { mode: bad, ..GOOD }, &archive, room, refused(3));
    }
    copy_refused(&Params { mode: LOSSY, ..GOOD }, &archive, room, refused(3));
    copy_refused(&Params { kind: FLOATS, mode: LOSSY, ..GOOD }, &archive, room, refused(3));
    for bad in [0, 5, u32::MAX] {
        copy_refused(&Params { dimension: bad, ..GOOD }, &archive, room, refused(2));
    }
    for bad in [0, 33, u32::MAX] {
        copy_refused(&Params { planes: bad, ..GOOD }, &archive, room, refused(4));
    }
    for bad in [1, 15, 8_463, u32::MAX] {
        copy_refused(&Params { width: bad, ..GOOD }, &archive, room, refused(5));
    }
    for bad in [i32::MIN, -301, 301, i32::MAX] {
        copy_refused(&Params { lowest: bad, ..GOOD }, &archive, room, refused(13));
    }
}

/// The longest of each are taken, a byte more is not.
#[test]
fn row_6_of_either_buffer() {
    // Eight slots of 8,462 bits are 8,462 bytes.
    let wide = Params { width: 8_462, ..GOOD };
    let zeros = vec![0; LONG];
    assert_eq!(copy(&wide, &zeros[..65_536], &mut vec![0; 65_536]), done(61, 0));
    copy_refused(&wide, &zeros, 65_536, refused(6));
    copy_refused(&wide, &zeros[..65_536], LONG, refused(6));
    copy_refused(&wide, &[], LONG, refused(6));
    copy_refused(&wide, &zeros, LONG, refused(6));
}

/// 14 slots of 146 bits are 2,044 bits, 255 bytes and a half.
#[test]
fn row_14_counts_slots() {
    let archive = [0; 84];
    copy_refused(&GOOD, &archive, 255, refused(14));
    copy_refused(&GOOD, &archive, 84, refused(14));
    copy_refused(&GOOD, &archive, 0, refused(14));
    assert_eq!(copy(&GOOD, &archive, &mut [0; 256]), done(14, 0));
    // One slot less, of which the new one need not take more.
    assert_eq!(copy(&GOOD, &archive[1..], &mut [0; 238]), done(13, 0));
    // A new archive may be shorter than a wide old one.
    assert_eq!(copy(&Params { width: 8_462, ..GOOD }, &[0; 8_462], &mut [0; 146]), done(8, 0));
}

/// 11 has the number of the first slot that cannot be read.
#[test]
fn row_11_has_the_slot() {
    for first in 0..14 {
        let mut archive = [0; 84];
        (first..14).step_by(3).for_each(|slot| set(&mut archive, 48 * slot + 47, true));
        copy_refused(&GOOD, &archive, 256, unreadable(first as u32));
    }
    // Bits past the last slot are no part of it.
    let mut archive = [0; 15];
    archive[12..].fill(0xFF);
    assert_eq!(copy(&GOOD, &archive, &mut [0; 37]), done(2, 0));
}

/// Each row with all later ones: the parameters from a row on, buffers too long, too few slots, slots that cannot be read.
#[test]
fn the_order_of_the_rows() {
    const ROWS: [u32; 6] = [1, 2, 3, 4, 5, 13];
    let noise = vec![0xFF; LONG];
    for (place, row) in ROWS.into_iter().enumerate() {
        for mode in [LOSSY, 2] {
            let pick = |at: usize, good: u32, bad: u32| if at >= place { bad } else { good };
            let p = params(pick(0, 0, 2), pick(1, 1, 5), pick(2, 1, mode), pick(3, 32, 33), pick(4, 48, 15));
            let p = Params { lowest: MAX_LOWEST + 1, ..p };
            copy_refused(&p, &noise, LONG, refused(row));
            copy_refused(&p, &noise[..84], 0, refused(row));
            copy_refused(&p, &noise[..84], 256, refused(row));
        }
    }
    copy_refused(&GOOD, &noise, 0, refused(6));
    copy_refused(&GOOD, &noise[..84], LONG, refused(6));
    copy_refused(&GOOD, &noise[..84], 255, refused(14));
    copy_refused(&GOOD, &noise[..84], 256, unreadable(0));
}
