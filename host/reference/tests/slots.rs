//! Stores and reads: round trips, cuts, widths, neighbours, special values.

mod common;
use common::*;
use reference::{Params, bit_count, read, slot_count, store};

/// The words of a lossy slot, and the planes that could be read whole.
fn lossy_read(kind: u32, planes: u32, width: u32, text: &str) -> ([u32; 4], u32) {
    let p = params(kind, 1, LOSSY, planes, width);
    let mut words = [9; 4];
    let archive = bytes_of(&bits(text), (width as usize).div_ceil(8));
    let reply = read(&p, &archive, 0, &mut words);
    assert_eq!((reply.answer, reply.count), (0, 4));
    (words, reply.planes)
}

#[test]
fn slot_counts() {
    let p = params(INTEGERS, 1, LOSSY, 32, 0);
    assert_eq!(slot_count(&p, &[0; 8]), done(2, 0));
    assert_eq!(slot_count(&Params { dimension: 2, ..p }, &[0; 17]), done(1, 0));
    // 146 and 542 bits.
    let p = params(INTEGERS, 1, EXACT, 32, 0);
    assert_eq!(slot_count(&p, &[0; 36]), done(1, 0));
    assert_eq!(slot_count(&p, &[0; 37]), done(2, 0));
    assert_eq!(slot_count(&Params { dimension: 2, ..p }, &[0; 67]), done(0, 0));
    assert_eq!(slot_count(&Params { dimension: 2, ..p }, &[0; 68]), done(1, 0));
    assert_eq!(slot_count(&Params { width: 17, ..p }, &[0; 65_536]), done(30_840, 0));
    assert_eq!(slot_count(&Params { width: 8_462, ..p }, &[0; 1_057]), done(0, 0));
    assert_eq!(slot_count(&Params { width: 8_462, ..p }, &[0; 65_536]), done(61, 0));
    assert_eq!(slot_count(&p, &[]), done(0, 0));
}

#[test]
fn a_lossy_code_is_cut_at_the_width() {
    let words = [0x1234_5678, 0x8765_4321, 0x0BAD_CAFE, 0x7EED_5EED];
    let whole = params(INTEGERS, 1, LOSSY, 32, 8_462);
    let (reply, code) = stored(&whole, &words);
    for width in 16..=200 {
        let (cut, slot) = stored(&Params { width, ..whole }, &words);
        assert_eq!(cut.count, reply.count.min(width));
        assert_eq!(slot[..], code[..width as usize]);
    }
}

/// The block of four coefficients in negabinary.
fn block_of(coefficients: [u32; 4]) -> [u32; 4] {
    reference::transform::unlift(coefficients.map(reference::words::from_negabinary))
}

#[test]
fn a_cut_scan_sets_the_bit_at_the_place_that_it_has_come_to() {
    // Sixteen bits: fifteen planes without a one, then a test alone as the budget ends. Right after it, that is place 0.
    assert_eq!(lossy_read(INTEGERS, 32, 16, "000000000000000 1"), (block_of([1 << 16, 0, 0, 0]), 15));
    // One 0 of a scan from place 0 comes to place 1, two come to place 2.
    assert_eq!(lossy_read(INTEGERS, 32, 16, "00000000000000 1 0"), (block_of([0, 1 << 17, 0, 0]), 14));
    assert_eq!(lossy_read(INTEGERS, 32, 16, "0000000000000 1 00"), (block_of([0, 0, 1 << 18, 0]), 13));
    // A third comes to place 3, which is known: that plane is whole.
    assert_eq!(lossy_read(INTEGERS, 32, 16, "000000000000 1 000"), (block_of([0, 0, 0, 1 << 19]), 13));
    // After a one at place 2 a test alone is enough for place 3, and that plane is whole too.
    let both = block_of([0, 0, 1 << 20, 1 << 20]);
    assert_eq!(lossy_read(INTEGERS, 32, 16, "00000000000 1 001 1"), (both, 12));
    // After a one at place 0 a test alone says that a one comes from place 1 on.
    let both = block_of([1 << 18, 1 << 18, 0, 0]);
    assert_eq!(lossy_read(INTEGERS, 32, 16, "0000000000000 1 1 1"), (both, 13));
    // In the next plane n is 1, and the place is too.
    let both = block_of([1 << 20, 1 << 19, 0, 0]);
    assert_eq!(lossy_read(INTEGERS, 32, 16, "00000000000 110 0 1"), (both, 12));
}

#[test]
fn a_cut_test_sets_no_bit() {
    // After a one at place 0, and in the next plane, after its first bit.
    assert_eq!(lossy_read(INTEGERS, 32, 16, "00000000000000 1 1"), (block_of([1 << 17, 0, 0, 0]), 14));
    assert_eq!(lossy_read(INTEGERS, 32, 16, "000000000000 110 0"), (block_of([1 << 19, 0, 0, 0]), 13));
}

#[test]
fn lossy_floats_cut_to_the_smallest_width() {
    // Seven bits are left for the planes: 1.0 keeps 2^30 - 2^29, its planes 31 to 29. Of plane 28 a bit fits, not its test.
    let p = params(FLOATS, 1, LOSSY, 32, 16);
    let mut archive = [0xFF; 2];
    assert_eq!(store(&p, &mut archive, 0, &[0x3F80_0000; 4]), done(16, 3));
    let mut words = [0; 4];
    assert_eq!(read(&p, &archive, 0, &mut words), done(4, 3));
    assert_eq!(words, [0x3F80_0000; 4]);
}

#[test]
fn lossy_floats_of_no_magnitude_are_a_single_0() {
    let p = params(FLOATS, 1, LOSSY, 32, 64);
    let (reply, slot) = stored(&p, &[0x8000_0000, 0, 0x8000_0000, 0]);
    assert_eq!(reply, done(1, 0));
    assert!(!slot.contains(&true));
    // After a first bit 0 nothing else of the slot matters.
    assert_eq!(lossy_read(FLOATS, 32, 64, &format!("0{}", "1".repeat(63))), ([0; 4], 0));
    // A first bit 1 with no one in the planes gives +0s, with any e. Each plane is a test.
    for e in ["00000000", "11111111", "00000001"] {
        assert_eq!(lossy_read(FLOATS, 32, 64, &format!("1{e}")), ([0; 4], 32));
    }
}

#[test]
fn lossy_read_of_e_0() {
    // A one in plane 30 of the first coefficient only: 2^30 x 2^-157 = 2^-127, the pattern 0x00400000.
    assert_eq!(lossy_read(FLOATS, 2, 64, "1 00000000 0 110"), ([0x0040_0000; 4], 2));
}

#[test]
fn lossy_read_of_the_largest_e() {
    // 2^30 x 2^98 = 2^128 is too large; the planes 31 and 30 give -2^31 + 2^30, its negative.
    assert_eq!(lossy_read(FLOATS, 2, 64, "1 11111111 0 110"), ([0x7F80_0000; 4], 2));
    assert_eq!(lossy_read(FLOATS, 2, 64, "1 11111111 110 10"), ([0xFF80_0000; 4], 2));
}

#[test]
fn subnormals_have_e_1() {
    let p = params(FLOATS, 1, LOSSY, 32, 200);
    for words in [[1, 2, 3, 0x807F_FFFF], [0x0000_0001; 4], [0x8000_0001, 0, 0, 0]] {
        let (_, slot) = stored(&p, &words);
        assert_eq!(slot[..9], bits("1 10000000")[..]);
        assert_eq!(reference::floats::to_integer(1, words[0]) as i32, {
            let fraction = ((words[0] & 0x007F_FFFF) << 7) as i32;
            if words[0] >> 31 == 1 { -fraction } else { fraction }
        });
    }
}

#[test]
fn neighbours_keep_their_bits() {
    let mut random = Random::new(0x1F2E_3D4C_5B6A_7988);
    for width in [16, 17, 19, 23, 33, 136, 137, 145, 147] {
        let p = params(INTEGERS, 1, LOSSY, 32, width);
        let before: Vec<u8> = (0..150).map(|_| random.bits() as u8).collect();
        for slot in 0..slot_count(&p, &before).count as usize {
            let mut after = before.clone();
            assert_eq!(store(&p, &mut after, slot, &[random.word(); 4]).answer, 0);
            let own = slot * width as usize..(slot + 1) * width as usize;
            for t in (0..8 * before.len()).filter(|t| !own.contains(t)) {
                assert_eq!(reference::bits::get(&before, t), reference::bits::get(&after, t));
            }
        }
    }
}

/// Blocks that every kind of exact store should give back.
fn blocks(random: &mut Random, n: usize) -> Vec<Vec<u32>> {
    let specials = [
        0,
        0x8000_0000,
        1,
        0x8000_0001,
        0x007F_FFFF,
        0x0080_0000,
        0x3F80_0000,
        0xBF80_0000,
        0x7F7F_FFFF,
        0xFF7F_FFFF,
        0x7F80_0000,
        0xFF80_0000,
        0x7FC0_0000,
        0xFFFF_FFFF,
        0x7FFF_FFFF,
        0x5555_5555,
        0xAAAA_AAAA,
    ];
    let mut all = vec![];
    for special in specials {
        all.push(vec![special; n]);
        let mut one = vec![0; n];
        one[random.below(n)] = special;
        all.push(one);
    }
    for _ in 0..1200 / n {
        all.push((0..n).map(|_| random.word()).collect());
        all.push((0..n).map(|_| specials[random.below(specials.len())]).collect());
        let base = random.word() & 0x7F00_0000;
        all.push((0..n).map(|_| base | random.word() & 0x00FF_0000).collect());
    }
    all
}

#[test]
fn exact_blocks_come_back() {
    let mut random = Random::new(0x0123_4567_89AB_CDEF);
    for (kind, extra) in [(INTEGERS, 4), (FLOATS, 14)] {
        for (dimension, n) in [(1, 4), (2, 16), (3, 64), (4, 256)] {
            // Every slot of 33N + 4 or 33N + 14 bits takes every block.
            let p = params(kind, dimension, EXACT, 1, 33 * n + extra);
            for block in blocks(&mut random, n as usize) {
                let mut archive = vec![0xFF; 3 * (5 * n as usize)];
                let reply = store(&p, &mut archive, 2, &block);
                assert_eq!(reply.answer, 0);
                assert_eq!(bit_count(&p, &block), reply);
                let mut words = vec![0; n as usize];
                assert_eq!(read(&p, &archive, 2, &mut words), done(n, reply.planes));
                assert_eq!(words, block);
            }
        }
    }
}
