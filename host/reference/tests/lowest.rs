//! Request M-103: the lowest exponent q, and the planes that it keeps of lossy floats. All of it is worked out by hand.

mod common;
use by_hand::planes::{self as on_paper, PART, Planes};
use common::*;
use reference::{Params, bit_count, read, store};

/// Parameters of lossy floats with this q, in slots that take every code.
fn floats(dimension: u32, planes: u32, lowest: i32) -> Params {
    Params { lowest, ..params(FLOATS, dimension, LOSSY, planes, 8_462) }
}

/// Stores a block: the code is this, and so many planes of it are whole. Gives the words that it reads as.
fn stores(p: &Params, words: &[u32], code: &str, planes: u32) -> Vec<u32> {
    let (reply, slot) = stored(p, words);
    assert_eq!(reply, done(bits(code).len() as u32, planes), "{p:?}");
    starts_with(&slot, code);
    assert_eq!(bit_count(p, words), reply, "{p:?}");
    let mut back = vec![9; words.len()];
    assert_eq!(
        read(p, &bytes_of(&slot, slot.len().div_ceil(8)), 0, &mut back),
        done(back.len() as u32, planes)
    );
    back
}

const ONE: u32 = 0x3F80_0000;
const TWO: u32 = 0x4000_0000;

/// Four times 1.0: m = 1 and 2 x (dimension + 1) = 4, so with q = 4 there is one plane, which is empty, and with q = 5 none.
#[test]
fn the_worked_blocks() {
    let p = |lowest| floats(1, 32, lowest);
    assert_eq!(stores(&p(5), &[ONE; 4], "0", 0), [0; 4]);
    assert_eq!(stores(&p(4), &[ONE; 4], "1 00000001 0", 1), [0; 4]);
    // With plane 30 the integer is 2^30, and with plane 29 it is 2^30 - 2^29.
    assert_eq!(stores(&p(3), &[ONE; 4], "1 00000001 0 110", 2), [TWO; 4]);
    assert_eq!(stores(&p(2), &[ONE; 4], "1 00000001 0 110 10", 3), [ONE; 4]);
    assert_eq!(stores(&p(1), &[ONE; 4], "1 00000001 0 110 10 00", 4), [ONE; 4]);
    assert_eq!(stores(&p(300), &[ONE; 4], "0", 0), [0; 4]);
    // 1 + 27 + 4 = 32, and from there on all 32.
    let all = format!("1 00000001 0 110 10 {}", "00".repeat(29));
    for lowest in [-27, -28, -299, -300] {
        assert_eq!(stores(&p(lowest), &[ONE; 4], &all, 32), [ONE; 4]);
    }
    let all_but_one = format!("1 00000001 0 110 10 {}", "00".repeat(28));
    assert_eq!(stores(&p(-26), &[ONE; 4], &all_but_one, 31), [ONE; 4]);
}

/// The same in every dimension: 2 x (dimension + 1) is 4, 6, 8 and 10.
#[test]
fn ones_of_every_dimension() {
    for (dimension, n, first) in [(1, 4, 5), (2, 16, 7), (3, 64, 9), (4, 256, 11)] {
        let ones = vec![ONE; n];
        assert_eq!(stores(&floats(dimension, 32, first), &ones, "0", 0), vec![0; n]);
        assert_eq!(stores(&floats(dimension, 32, first - 1), &ones, "1 00000001 0", 1), vec![0; n]);
        assert_eq!(stores(&floats(dimension, 32, first - 2), &ones, "1 00000001 0 110", 2), vec![TWO; n]);
        assert_eq!(stores(&floats(dimension, 32, first - 3), &ones, "1 00000001 0 110 10", 3), vec![ONE; n]);
    }
}

/// 15.625 15.65625 15.6875 15.71875 degrees, m = 4: 8 - q planes in dimension 1.
#[test]
fn degrees_with_every_lowest() {
    let block = on_paper::degrees(1);
    let values = |lowest: i32, planes: u32| -> Vec<f32> {
        let code = if planes == 0 { "0".to_string() } else { block.code(planes) };
        let back = stores(&floats(1, 32, lowest), &block.words, &code, planes);
        back.into_iter().map(f32::from_bits).collect()
    };
    assert_eq!(values(8, 0), [0.0; 4]);
    assert_eq!(values(7, 1), [0.0; 4]);
    assert_eq!(values(6, 2), [16.0; 4]);
    assert_eq!(values(2, 6), [16.0; 4]);
    assert_eq!(values(1, 7), [15.5; 4]);
    assert_eq!(values(0, 8), [15.75; 4]);
    assert_eq!(values(-1, 9), [15.625; 4]);
    assert_eq!(values(-2, 10), [15.6875; 4]);
    assert_eq!(values(-3, 11), [15.609375, 15.640625, 15.671875, 15.703125]);
    assert_eq!(values(-4, 12), [15.625, 15.65625, 15.6875, 15.71875]);
    assert_eq!(values(-5, 13), [15.625, 15.65625, 15.6875, 15.71875]);
    assert_eq!(values(-24, 32), [15.625, 15.65625, 15.6875, 15.71875]);
    assert_eq!(values(-25, 32), [15.625, 15.65625, 15.6875, 15.71875]);
}

/// "the smaller of P and max(0, m - q + 2 x (dimension + 1))", for every number of planes on both sides.
#[test]
fn the_smaller_of_both() {
    for dimension in 1..=4 {
        for block in [on_paper::ones(dimension), on_paper::degrees(dimension)] {
            for to_lowest in -2..=34 {
                for planes in 1..=32 {
                    let coded = planes.min(to_lowest.max(0) as u32);
                    let code = if coded == 0 { "0".to_string() } else { block.code(coded) };
                    stores(&floats(dimension, planes, block.lowest(to_lowest)), &block.words, &code, coded);
                }
            }
        }
    }
}

/// What [`on_paper::degrees`] read as in every dimension, from slots that hold more planes than are read.
#[test]
fn degrees_of_every_dimension() {
    for dimension in 1..=4 {
        let block = on_paper::degrees(dimension);
        let slot = bytes_of(&bits(&block.code(32)), 1_058);
        for planes in 0..=32 {
            let p = floats(dimension, 32, block.lowest(planes));
            let mut words = vec![9; block.words.len()];
            let reply = read(&p, &slot, 0, &mut words);
            assert_eq!(reply, done(words.len() as u32, planes as u32));
            let line = on_paper::degrees_read(planes as u32).map(|parts| (parts * PART).to_bits());
            assert!(words.chunks(4).all(|words| words == line), "{p:?}");
        }
    }
}

/// The words and planes that a slot of 16 bits reads as.
fn reads(p: &Params, text: &str) -> (Vec<u32>, u32) {
    let mut words = vec![9; 4usize.pow(p.dimension)];
    let reply = read(&Params { width: 16, ..*p }, &bytes_of(&bits(text), 2), 0, &mut words);
    assert_eq!((reply.answer, reply.count as usize), (0, words.len()));
    (words, reply.planes)
}

/// "a first bit 1 with no planes gives +0s": whatever follows e.
#[test]
fn a_first_bit_1_with_no_planes() {
    for (dimension, n, first) in [(1, 4, 5), (2, 16, 7), (3, 64, 9), (4, 256, 11)] {
        // e = 128, m = 1: no store with such a q writes it.
        for rest in ["0000000", "0110100", "1111111", "1010101"] {
            for lowest in [first, first + 1, 299, 300] {
                let slot = format!("1 00000001 {rest}");
                assert_eq!(reads(&floats(dimension, 32, lowest), &slot), (vec![0; n], 0));
                assert_eq!(reads(&floats(dimension, 1, lowest), &slot), (vec![0; n], 0));
            }
        }
        // With a plane more, and one in it: the first coefficient is -2^31, which reads as -4.0.
        let (words, planes) = reads(&floats(dimension, 32, first - 1), "1 00000001 110");
        assert_eq!((words, planes), (vec![0xC080_0000; n], 1));
    }
}

/// e = 0 is m = -127, e = 255 is m = 128: in dimension 1 the first q without a plane are -123 and 132.
#[test]
fn reading_takes_m_from_e() {
    for (dimension, n, first) in [(1, 4, 4), (2, 16, 6), (3, 64, 8), (4, 256, 10)] {
        for (e, m) in [("00000000", -127), ("10000000", -126), ("01111111", 127), ("11111111", 128)] {
            // 2^30 in plane 30 of the first coefficient: 2^m.
            let slot = format!("1 {e} 0 110");
            let power = match m {
                -127 => 0x0040_0000,
                -126 => 0x0080_0000,
                127 => 0x7F00_0000,
                _ => 0x7F80_0000,
            };
            let planes = |planes: i32| reads(&floats(dimension, 32, m + first - planes), &slot);
            assert_eq!(planes(0), (vec![0; n], 0));
            assert_eq!(planes(-1), (vec![0; n], 0));
            assert_eq!(planes(1), (vec![0; n], 1));
            assert_eq!(planes(2), (vec![power; n], 2));
            // After the 4 bits of two planes there are 3: a plane of two bits, and one of another.
            assert_eq!(planes(3), (vec![power; n], 3));
            assert_eq!(planes(4), (vec![power; n], 3));
        }
    }
}

/// Tiny and huge values: subnormal numbers have e = 1, m = -126; the largest ones m = 128.
#[test]
fn exponents_at_both_ends() {
    // 2^-149: the integer is 2^(30 + 126 - 149) = 2^7, in negabinary the bits 8 and 7.
    let empty = "0".repeat(23);
    let tiny = format!("1 10000000 {empty} 110 10 {}", "00".repeat(7));
    assert_eq!(stores(&floats(1, 32, -300), &[1; 4], &tiny, 32), [1; 4]);
    assert_eq!(stores(&floats(1, 32, -122), &[1; 4], "0", 0), [0; 4]);
    assert_eq!(stores(&floats(1, 32, -123), &[1; 4], "1 10000000 0", 1), [0; 4]);
    assert_eq!(stores(&floats(1, 32, -146), &[1; 4], &format!("1 10000000 {empty} 110"), 24), [2; 4]);
    // 2^127: m = 128, the integer is 2^29.
    assert_eq!(stores(&floats(1, 32, 132), &[0x7F00_0000; 4], "0", 0), [0; 4]);
    assert_eq!(stores(&floats(1, 32, 131), &[0x7F00_0000; 4], "1 11111111 0", 1), [0; 4]);
    assert_eq!(stores(&floats(1, 32, 130), &[0x7F00_0000; 4], "1 11111111 0 110", 2), [0x7F80_0000; 4]);
    assert_eq!(stores(&floats(1, 32, 129), &[0x7F00_0000; 4], "1 11111111 0 110 10", 3), [0x7F00_0000; 4]);
}

/// The largest value counts: beside 1.0 a value of -2^-20 has as many planes.
#[test]
fn m_is_of_the_largest_value() {
    let words = [0xB580_0000, 0, ONE, 0x8000_0000];
    for (lowest, planes) in [(5, 0), (4, 1), (0, 5), (-27, 32), (-28, 32)] {
        let p = floats(1, 32, lowest);
        assert_eq!(bit_count(&p, &words).planes, planes);
    }
}

/// The slot's width cuts as before: of four times 1.0 the planes end at 10, 13, 15, 17, 19 and so on.
#[test]
fn the_width_cuts_what_is_kept() {
    for (lowest, width, count, planes) in
        [(4, 16, 10, 1), (2, 16, 15, 3), (1, 16, 16, 3), (1, 17, 17, 4), (0, 18, 18, 4), (-300, 18, 18, 4)]
    {
        let p = Params { width, ..floats(1, 32, lowest) };
        let mut archive = [0xFF; 3];
        assert_eq!(store(&p, &mut archive, 0, &[ONE; 4]), done(count, planes));
        assert_eq!(bit_count(&p, &[ONE; 4]), done(count, planes));
        assert_eq!(read(&p, &archive, 0, &mut [0; 4]), done(4, planes));
    }
}

/// A single 0 changes the bits of its own slot and no others.
#[test]
fn a_single_0_among_neighbours() {
    let p = Params { width: 19, ..floats(1, 32, 5) };
    let mut archive = [0xFF; 8];
    assert_eq!(store(&p, &mut archive, 1, &[ONE; 4]), done(1, 0));
    for t in 0..64 {
        assert_eq!(reference::bits::get(&archive, t), !(19..38).contains(&t), "bit {t}");
    }
}

/// Other kinds and modes ignore a good q.
#[test]
fn other_kinds_and_modes_take_no_notice() {
    let words = [0x3F80_0000, 0x4000_0000, 0x7FC0_0000, 5];
    for (kind, mode) in [(INTEGERS, LOSSY), (INTEGERS, EXACT), (FLOATS, EXACT)] {
        let p = params(kind, 1, mode, 20, 146);
        let (reply, slot) = stored(&p, &words);
        let mut expected = [0; 4];
        let bytes = bytes_of(&slot, 19);
        let given = read(&p, &bytes, 0, &mut expected);
        for lowest in MIN_LOWEST..=MAX_LOWEST {
            let with = Params { lowest, ..p };
            assert_eq!(stored(&with, &words), (reply, slot.clone()));
            assert_eq!(bit_count(&with, &words), reply);
            let mut back = [9; 4];
            assert_eq!((read(&with, &bytes, 0, &mut back), back), (given, expected));
        }
    }
}

/// Row 9 comes before the planes are looked at: with q = 300 no plane would be kept.
#[test]
fn row_9_with_no_planes() {
    assert_eq!(bit_count(&floats(1, 32, 300), &[0x7F80_0000, 0, 0, 0]), refused(9));
}

/// With q = -300 every block has all P planes, whatever its exponent is.
#[test]
fn the_lowest_of_all_keeps_all_planes() {
    for field in 0..255u32 {
        let words = [field << 23 | 1; 4];
        for dimension in 1..=4 {
            let words = words.repeat(4usize.pow(dimension) / 4);
            assert_eq!(bit_count(&floats(dimension, 32, -300), &words).planes, 32);
            assert_eq!(bit_count(&floats(dimension, 32, 300), &words), done(1, 0));
        }
    }
}

/// Every block of floats by hand as before, at some widths.
#[test]
fn blocks_by_hand_at_some_widths() {
    let blocks: Vec<Planes> = on_paper::all().into_iter().filter(|block| block.kind == FLOATS).collect();
    for block in blocks {
        for to_lowest in [1, 3, 11, 12, 13, 31] {
            let coded = to_lowest as u32;
            let uncut = block.code(coded).len();
            for width in 16..=uncut.max(16) + 1 {
                let p =
                    Params { width: width as u32, ..floats(block.dimension, 32, block.lowest(to_lowest)) };
                let whole = block.whole(coded, width);
                assert_eq!(bit_count(&p, &block.words), done(uncut.min(width) as u32, whole), "{p:?}");
            }
        }
    }
}
