//! Copies worked out by hand from the papers, on the library alone.

use testing::{bits, by_hand};
use windlassow::{Dimension, Done, MIN_LOWEST, Params, Refusal, copy, read, slot_count, store};

/// Puts these bits from bit `at` on.
fn put(bytes: &mut [u8], at: usize, code: &[bool]) {
    for (t, &bit) in (at..).zip(code) {
        bytes[t / 8] = bytes[t / 8] & !(1 << (t % 8)) | u8::from(bit) << (t % 8);
    }
}

/// An archive of slots of that width with these codes, each followed by zeros; what comes after them are ones.
fn archive(width: usize, codes: &[&str], len: usize) -> Vec<u8> {
    let mut bytes = vec![0xFF; len];
    for (slot, code) in codes.iter().enumerate() {
        let mut code = bits(code);
        code.resize(width, false);
        put(&mut bytes, slot * width, &code);
    }
    bytes
}

/// Slots of 48 bits with P1, six zeros, and P2, 11111, 31 zeros and 110. In the new archive slot 1 starts at bit 146, which is bit 2
/// of byte 18: there are the five ones. 36 bits on, at bit 182, bit 6 of byte 22, is 110. Both slots end at bit 292, bit 4 of byte 36;
/// the ones from there on stay.
#[test]
fn p1_and_p2_from_slots_of_48_bits() {
    let p = Params::exact_integers(Dimension::One).with_width(48);
    let old = [0, 0, 0, 0, 0, 0, 0x1F, 0, 0, 0, 0x30, 0];
    let mut new = [0xFF; 39];
    assert_eq!(copy(p, &old, &mut new), Ok(2));
    let mut expected = [0; 39];
    (expected[18], expected[22]) = (0b0111_1100, 0b1100_0000);
    expected[36..].copy_from_slice(&[0xF0, 0xFF, 0xFF]);
    assert_eq!(new, expected);
    // A byte short of both: 36 bytes are 288 bits. Nothing changes.
    let before = new;
    assert_eq!(copy(p, &old, &mut new[..36]), Err(Refusal::TooFewSlots));
    assert_eq!(new, before);
}

/// The former default, 8N bits: four times 256, which is 2^8 in negabinary too. p is 24, so 23 as 11101, planes 31 to 9 empty, 110:
/// 31 bits, and a zero. An archive of two such slots has none of 146 bits. The second starts at bit 32.
#[test]
fn an_archive_of_the_former_default() {
    let old = [0, 0, 0, 0, 0x17, 0, 0, 0x30];
    let p = Params::from_numbers(0, 1, 1, 32, 32, MIN_LOWEST);
    let mut words = [9; 4];
    assert_eq!(read(p, &old, 1, &mut words), Ok(Done { count: 4, planes: 24 }));
    assert_eq!(words, [256; 4]);
    assert_eq!((slot_count(p, &old), slot_count(p.with_width(0), &old)), (Ok(2), Ok(0)));
    // Bit 146 is bit 2 of byte 18: 11101 are 0x17 << 2. 28 bits on, at bit 174, bit 6 of byte 21, is 110.
    let mut new = [0; 37];
    assert_eq!(copy(p, &old, &mut new), Ok(2));
    let mut expected = [0; 37];
    (expected[18], expected[21]) = (0x17 << 2, 0b1100_0000);
    assert_eq!(new, expected);
    assert_eq!(read(p.with_width(0), &new, 1, &mut words), Ok(Done { count: 4, planes: 24 }));
    assert_eq!(words, [256; 4]);
    // P2 has 39 bits: too many for the old slot, and not for the new one.
    let mut old = old;
    assert_eq!(store(p, &mut old, 0, &[1; 4]), Err(Refusal::CodeTooLong { bits: 39 }));
    assert_eq!(store(p.with_width(0), &mut new, 0, &[1; 4]), Ok(Done { count: 39, planes: 32 }));
    assert_eq!(new[..19], [0x1F, 0, 0, 0, 0x30, 0, 0, 0, 0, 0, 0, 0, 0, 0, 0, 0, 0, 0, 0x17 << 2]);
}

/// Floats: P5, four times 1.0, 21 bits; zeros, a single 0; and four times -0, which are -1 in the raw form, 3 in negabinary: 42 bits. In
/// slots of 42 bits they start at the bits 0, 42 and 84, in full ones at 0, 146 and 292.
#[test]
fn floats_from_slots_of_42_bits() {
    let minus_zeros = format!("11 11111 {} 110 10", "0".repeat(30));
    let codes = ["10 00000001 01000 0 110 10", "0", &minus_zeros];
    let p = Params::exact_floats(Dimension::One).with_width(42);
    let mut new = vec![0xFF; 60];
    assert_eq!(copy(p, &archive(42, &codes, 16), &mut new), Ok(3));
    assert_eq!(new, archive(146, &codes, 60));
    assert_eq!(new[..4], [0b0000_0001, 0b0000_1010, 0b0000_1011, 0]);
}

/// N times 1: the first coefficient is 1, all others 0. In every dimension 39 bits, slots of 39, 40 and of 8,462 bits.
#[test]
fn equal_integers_of_every_dimension() {
    let ones = format!("11111 {} 110", "0".repeat(31));
    for (dimension, full) in [(1, 146), (2, 542), (3, 2_126), (4, 8_462)] {
        for width in [39, 40, 8_462] {
            let codes = [&ones, "000000", &ones, &ones];
            let p = Params::from_numbers(0, dimension, 1, 32, width as u32, MIN_LOWEST);
            let old = archive(width, &codes, (4 * width).div_ceil(8));
            let mut new = vec![0xFF; full / 2 + 9];
            assert_eq!(copy(p, &old, &mut new), Ok(4));
            assert_eq!(new, archive(full, &codes, full / 2 + 9));
        }
    }
}

/// P3, the longest integer code, 33N + 4 ones, from slots that it just fits: ten zeros follow it in a full one.
#[test]
fn the_longest_integer_block() {
    for (dimension, full) in [(1, 146), (2, 542), (3, 2_126), (4, 8_462)] {
        let needed = full - 10;
        let p = Params::from_numbers(0, dimension, 1, 32, needed as u32, MIN_LOWEST);
        let mut new = vec![0xFF; full / 4 + 1];
        assert_eq!(copy(p, &vec![0xFF; needed / 4], &mut new), Ok(2));
        let code = "1".repeat(needed);
        assert_eq!(new, archive(full, &[&code, &code], full / 4 + 1));
        let mut words = vec![9; 4usize.pow(dimension)];
        assert_eq!(read(p.with_width(0), &new, 1, &mut words).map(|done| done.planes), Ok(32));
        assert_eq!(words, by_hand::longest(dimension));
    }
}

/// A one after the code of a slot: it cannot be read. Of slots 0 to 3 the second and the last.
#[test]
fn the_first_slot_that_cannot_be_read() {
    let p = Params::exact_integers(Dimension::One).with_width(16);
    let mut old = [0, 0, 0, 0x80, 0, 0, 0, 0x80];
    let mut new = [0x5A; 73];
    assert_eq!(copy(p, &old, &mut new), Err(Refusal::UnreadableSlot { slot: 1 }));
    old[3] = 0;
    assert_eq!(copy(p, &old, &mut new), Err(Refusal::UnreadableSlot { slot: 3 }));
    assert_eq!(new, [0x5A; 73]);
    // Of three slots the last bit is past them: it is no part of a slot.
    assert_eq!(copy(p, &old[..7], &mut new), Ok(3));
    // 438 bits are zero, the last two of byte 54 stay.
    assert!(new[..54].iter().all(|&byte| byte == 0));
    assert_eq!((new[54], &new[55..]), (0x5A & 0xC0, &[0x5A; 18][..]));
}
