//! Every refusal row of the slot calls, their order, and that a refused call changes nothing.

mod common;
use common::*;
use reference::{Params, Reply, bit_count, read, slot_count, store};

const GOOD: Params = Params { kind: 0, dimension: 1, mode: 1, planes: 32, width: 136, lowest: MIN_LOWEST };
const NAN: u32 = 0x7FC0_0000;

/// The rows of the parameters, in their order.
const ROWS: [u32; 6] = [1, 2, 3, 4, 5, 13];

/// Parameters with a row broken, and those rows after it.
fn broken_from(row: u32) -> Params {
    let pick = |number: u32, good: u32, bad: u32| if number >= row { bad } else { good };
    let p = params(pick(1, 0, 2), pick(2, 1, 5), pick(3, 1, 2), pick(4, 32, 33), pick(5, 136, 8_463));
    Params { lowest: MAX_LOWEST + 1, ..p }
}

fn store_refused(p: &Params, len: usize, slot: usize, words: &[u32], reply: Reply) {
    let mut archive = vec![0xA5; len];
    assert_eq!(store(p, &mut archive, slot, words), reply);
    assert!(archive.iter().all(|&byte| byte == 0xA5));
}

fn read_refused(p: &Params, archive: &[u8], slot: usize, words_len: usize, reply: Reply) {
    let mut words = vec![77; words_len];
    assert_eq!(read(p, archive, slot, &mut words), reply);
    assert!(words.iter().all(|&word| word == 77));
}

#[test]
fn rows_1_to_5_and_13_come_first_in_every_call() {
    let long = vec![0; 65_537];
    for row in ROWS {
        let p = broken_from(row);
        store_refused(&p, 65_537, usize::MAX, &[NAN; 5], refused(row));
        read_refused(&p, &long, usize::MAX, 5, refused(row));
        assert_eq!(slot_count(&p, &long), refused(row));
        assert_eq!(bit_count(&p, &[NAN; 5]), refused(row));
    }
}

#[test]
fn each_parameter_has_its_row() {
    for bad in [2, 3, u32::MAX] {
        assert_eq!(bit_count(&Params { kind: bad, ..GOOD }, &[0; 4]), refused(1));
        assert_eq!(bit_count(&Params { mode: bad, ..GOOD }, &[0; 4]), refused(3));
    }
    for bad in [0, 5, 6, u32::MAX] {
        assert_eq!(bit_count(&Params { dimension: bad, ..GOOD }, &[0; 4]), refused(2));
    }
    for (dimension, mode) in (1..=4).flat_map(|dimension| [(dimension, LOSSY), (dimension, EXACT)]) {
        let (p, words) = (Params { dimension, mode, ..GOOD }, vec![0; 4usize.pow(dimension)]);
        for bad in [0, 33, u32::MAX] {
            assert_eq!(bit_count(&Params { planes: bad, ..p }, &words), refused(4));
        }
        for bad in [1, 15, 8_463, u32::MAX] {
            assert_eq!(bit_count(&Params { width: bad, ..p }, &words), refused(5));
        }
        for good in [0, 16, 1_025, 8_462] {
            assert_eq!(bit_count(&Params { width: good, ..p }, &words).answer, 0);
        }
        for kind in [INTEGERS, FLOATS] {
            for bad in [i32::MIN, -301, 301, i32::MAX] {
                assert_eq!(bit_count(&Params { kind, lowest: bad, ..p }, &words), refused(13));
            }
            for good in [-300, -299, 0, 299, 300] {
                assert_eq!(bit_count(&Params { kind, lowest: good, ..p }, &words).answer, 0);
            }
        }
    }
}

/// A good call but for the parameters, then such as the rows 6, 7, 8, 9 and 11 would refuse too. The answer is this row.
fn every_call_refused(p: &Params, row: u32) {
    let cases: [(usize, usize, &[u32]); 5] =
        [(17, 0, &[0; 4]), (65_537, 0, &[0; 4]), (17, 1, &[0; 4]), (17, 0, &[0; 5]), (17, 0, &[NAN; 4])];
    for (len, slot, words) in cases {
        store_refused(p, len, slot, words, refused(row));
        read_refused(p, &vec![0xFE; len], slot, words.len(), refused(row));
        assert_eq!(slot_count(p, &vec![0; len]), refused(row));
        assert_eq!(bit_count(p, words), refused(row));
    }
}

/// Row 13 with each other one: 1 to 5 come before it, all others after it.
#[test]
fn row_13_comes_between_5_and_6() {
    for lowest in [i32::MIN, -301, 301, i32::MAX] {
        for (kind, mode) in [(INTEGERS, LOSSY), (INTEGERS, EXACT), (FLOATS, LOSSY), (FLOATS, EXACT)] {
            let bad = Params { kind, mode, lowest, ..GOOD };
            every_call_refused(&Params { kind: 2, ..bad }, 1);
            every_call_refused(&Params { dimension: 5, ..bad }, 2);
            every_call_refused(&Params { mode: 2, ..bad }, 3);
            every_call_refused(&Params { planes: 33, ..bad }, 4);
            every_call_refused(&Params { width: 15, ..bad }, 5);
            every_call_refused(&bad, 13);
            // A code that is longer than W, row 10.
            store_refused(&Params { width: 16, ..bad }, 2, 0, &[1, 20, 300, 4000], refused(13));
        }
    }
}

/// The first row that applies, whatever else is bad.
#[test]
fn several_bad_at_once() {
    for (p, row) in [
        (params(2, 0, 2, 0, 15), 1),
        (params(2, 4, 1, 32, 8_463), 1),
        (params(0, 0, 2, 0, 8_463), 2),
        (params(1, 5, 1, 33, 15), 2),
        (params(0, 4, 2, 0, 8_463), 3),
        (params(1, 3, 0, 0, 8_463), 4),
        (params(1, 3, 1, 33, 15), 4),
        (params(1, 4, 1, 32, 8_463), 5),
        (params(0, 3, 0, 1, 15), 5),
    ] {
        store_refused(&p, 65_537, usize::MAX, &[NAN; 5], refused(row));
        assert_eq!(bit_count(&p, &[NAN; 5]), refused(row));
    }
}

#[test]
fn rows_6_to_8_in_order() {
    store_refused(&GOOD, 65_537, usize::MAX, &[0; 5], refused(6));
    read_refused(&GOOD, &vec![0; 65_537], usize::MAX, 5, refused(6));
    assert_eq!(slot_count(&GOOD, &vec![0; 65_537]), refused(6));
    for slot in [2, 3, usize::MAX / 136, usize::MAX] {
        store_refused(&GOOD, 34, slot, &[0; 5], refused(7));
        read_refused(&GOOD, &[0; 34], slot, 5, refused(7));
    }
    store_refused(&GOOD, 16, 0, &[0; 4], refused(7));
    store_refused(&GOOD, 0, 0, &[0; 4], refused(7));
    for len in [0, 3, 5, 16] {
        store_refused(&GOOD, 34, 1, &vec![NAN; len], refused(8));
        read_refused(&GOOD, &[0xFF; 34], 1, len, refused(8));
        assert_eq!(bit_count(&GOOD, &vec![0; len]), refused(8));
    }
    // The words of another dimension.
    for (dimension, other) in (1..=4).flat_map(|dimension| (1..=4).map(move |other| (dimension, other))) {
        let answer = bit_count(&Params { dimension, ..GOOD }, &vec![0; 4usize.pow(other)]).answer;
        assert_eq!(answer, if other == dimension { 0 } else { 8 });
    }
}

#[test]
fn row_9_is_for_lossy_floats_only() {
    let lossy = params(FLOATS, 1, LOSSY, 32, 136);
    for special in [NAN, 0x7F80_0000, 0xFF80_0000, 0xFFFF_FFFF, 0x7F80_0001] {
        for place in 0..4 {
            let mut words = [0x3F80_0000; 4];
            words[place] = special;
            store_refused(&lossy, 34, 0, &words, refused(9));
            assert_eq!(bit_count(&lossy, &words), refused(9));
            assert_eq!(bit_count(&Params { mode: EXACT, ..lossy }, &words).answer, 0);
            assert_eq!(bit_count(&Params { kind: INTEGERS, ..lossy }, &words).answer, 0);
        }
    }
    assert_eq!(bit_count(&lossy, &[NAN; 5]), refused(8));
}

#[test]
fn row_10_returns_the_bits_it_needs() {
    let words = [0xaaaaaaab, 0x55555556, 0xaaaaaaac, 0x55555558];
    for width in [16, 32, 135] {
        let p = Params { width, ..GOOD };
        store_refused(&p, 34, 0, &words, too_long(136));
        assert_eq!(bit_count(&p, &words), done(136, 32));
    }
}

#[test]
fn row_11_exact_slots_that_are_no_code() {
    read_refused(&GOOD, &[0xFF, 0xFF, 0xFF], 0, 4, refused(7));
    // All ones is P3's code at 136 bits and no code at 144.
    let mut words = [0; 4];
    assert_eq!(read(&GOOD, &[0xFF; 17], 0, &mut words), done(4, 32));
    read_refused(&Params { width: 144, ..GOOD }, &[0xFF; 18], 0, 4, refused(11));
}

#[test]
fn one_bit_in_the_padding_gives_11() {
    // With the planes p. The last difference of the last block is odd, so that all planes are needed.
    let blocks: [(u32, [u32; 4], u32); 5] = [
        (INTEGERS, [0; 4], 1),
        (INTEGERS, [1, 2, 3, 4], 32),
        (FLOATS, [0; 4], 0),
        (FLOATS, [0x3F80_0000; 4], 3),
        (FLOATS, [NAN, 0, 0, 0x8000_0000], 32),
    ];
    for (kind, block, planes) in blocks {
        let p = params(kind, 1, EXACT, 32, 150);
        let mut archive = [0; 19];
        let code = store(&p, &mut archive, 0, &block).count as usize;
        let mut words = [0; 4];
        assert_eq!(read(&p, &archive, 0, &mut words), done(4, planes));
        assert_eq!(words, block);
        for t in code..150 {
            let mut damaged = archive;
            reference::bits::set(&mut damaged, t, true);
            read_refused(&p, &damaged, 0, 4, refused(11));
        }
        // Bits past the last slot are no part of it.
        archive[18] |= 0xC0;
        assert_eq!(read(&p, &archive, 0, &mut words), done(4, planes));
    }
}

fn float_slot(text: &str) -> Reply {
    let p = params(FLOATS, 1, EXACT, 32, 64);
    read(&p, &bytes_of(&bits(text), 8), 0, &mut [0; 4])
}

#[test]
fn heads_that_no_block_has_give_11() {
    // Four times 1.0 as it is stored: the integers are 2^29. Another e makes it four times 2.0.
    assert_eq!(float_slot("10 00000001 01000 0 110 10"), done(4, 3));
    assert_eq!(float_slot("10 10000001 01000 0 110 10"), done(4, 3));
    // A plane too many.
    assert_eq!(float_slot("10 00000001 11000 0 110 10 00"), refused(11));
    // Integers of 2^28 and 2^30: e is not the largest field plus one.
    assert_eq!(float_slot("10 00000001 11000 000 110"), refused(11));
    assert_eq!(float_slot("10 00000001 10000 0 110"), refused(11));
    // e = 0 is never a block's own.
    assert_eq!(float_slot("10 00000000 01000 0 110 10"), refused(11));
    // All zero words in the form of multiples, and in the raw form.
    assert_eq!(float_slot("10 10000000 00000 0"), refused(11));
    assert_eq!(float_slot("11 00000 0"), refused(11));
    assert_eq!(float_slot("0"), done(4, 0));
    // Four times 1.0 in the raw form: 0x3F800000 = 2^30 - 2^23, whose lowest plane is 23.
    let raw = {
        let coefficients = reference::words::to_negabinary(0x3F80_0000u32);
        let p = 32 - coefficients.trailing_zeros();
        let planes = reference::planes::code(&[coefficients, 0, 0, 0], p);
        let text: String = planes.iter().map(|&bit| if bit { '1' } else { '0' }).collect();
        let head: String = (0..5).map(|k| if (p - 1) >> k & 1 == 1 { '1' } else { '0' }).collect();
        format!("11 {head} {text}")
    };
    assert_eq!(float_slot(&raw), refused(11));
}
