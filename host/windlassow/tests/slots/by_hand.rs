//! Outcomes worked out by hand from the papers, on the library alone.

use testing::by_hand::planes as on_paper;
use testing::{bits, by_hand};
use windlassow::{Done, MIN_LOWEST, Params, Refusal, bit_count, read, slot_count, store};

const ONE: u32 = 0x3F80_0000;

/// Stores in slot 0 of an archive of ones. The count is the length of this code, of which so many planes are whole, and the
/// slot is the code and then zeros. Gives the archive.
fn stores(p: Params, words: &[u32], code: &str, planes: u32) -> Vec<u8> {
    let width = p.width() as usize;
    let mut archive = vec![0xFF; width.div_ceil(8)];
    let mut expected = bits(code);
    let done = Done { count: expected.len(), planes };
    assert_eq!(store(p, &mut archive, 0, words), Ok(done), "{words:x?}");
    assert_eq!(bit_count(p, words), Ok(done), "{words:x?}");
    expected.resize(width, false);
    let slot: Vec<bool> = (0..width).map(|t| archive[t / 8] >> (t % 8) & 1 == 1).collect();
    assert_eq!(slot, expected, "{words:x?}");
    archive
}

/// The same, and the slot reads as these words, with as many planes.
fn stores_and_reads(p: Params, words: &[u32; 4], code: &str, planes: u32, back: [i32; 4]) {
    let archive = stores(p, words, code, planes);
    let mut read_back = [9; 4];
    assert_eq!(read(p, &archive, 0, &mut read_back), Ok(Done { count: 4, planes }));
    assert_eq!(read_back.map(|word| word as i32), back, "width {} planes {}", p.width(), p.planes());
}

/// Four equal integers c have the coefficients c 0 0 0, so the code shows P8: -1, 1, 2, -2 are 3, 1, 6, 2.
#[test]
fn equal_integers_of_p8() {
    let p = Params::from_numbers(0, 1, 1, 32, 64, MIN_LOWEST);
    let zeros = |count| "0".repeat(count);
    stores(p, &[-1i32 as u32; 4], &format!("11111 {} 110 10", zeros(30)), 32);
    stores(p, &[1; 4], &format!("11111 {} 110", zeros(31)), 32);
    stores(p, &[2; 4], &format!("01111 {} 110 10", zeros(29)), 31);
    stores(p, &[-2i32 as u32; 4], &format!("01111 {} 110", zeros(30)), 31);
}

/// The value of place i + 4j + .. is one of the indices. Its one coefficient other than 0 is a 1 at place 1, 4, 16 or 64,
/// the next in order after place 0.
#[test]
fn columns_are_next_to_each_other() {
    for dimension in 1..=4 {
        let p = Params::from_numbers(0, dimension, 1, 32, 64, MIN_LOWEST);
        for axis in 0..dimension as usize {
            let block: Vec<u32> =
                (0..4usize.pow(dimension)).map(|place| by_hand::indices(place)[axis] as u32).collect();
            stores(p, &block, &format!("11111 {} 1 {} 10", "0".repeat(31), "0".repeat(axis + 1)), 32);
        }
    }
}

/// A block of one coefficient shows its number in the order.
#[test]
fn the_order_of_coefficients() {
    for dimension in 1..=4 {
        let p = Params::from_numbers(0, dimension, 1, 32, 300, MIN_LOWEST);
        for (number, place) in by_hand::order(dimension) {
            stores(p, &by_hand::single(dimension, place), &by_hand::single_code(dimension, number), 32);
        }
    }
}

/// P3 and P4 for every N.
#[test]
fn the_longest_integer_block() {
    for (dimension, needed) in [(1, 136), (2, 532), (3, 2_116), (4, 8_452)] {
        let p = Params::from_numbers(0, dimension, 1, 32, needed as u32, MIN_LOWEST);
        let block = by_hand::longest(dimension);
        let mut archive = stores(p, &block, &"1".repeat(needed), 32);
        let narrow = p.with_width(needed as u32 - 1);
        assert_eq!(store(narrow, &mut archive, 0, &block), Err(Refusal::CodeTooLong { bits: needed }));
        assert_eq!(bit_count(narrow, &block), Ok(Done { count: needed, planes: 32 }));
        let mut back = vec![9; block.len()];
        assert_eq!(read(p, &archive, 0, &mut back), Ok(Done { count: block.len(), planes: 32 }));
        assert_eq!(back, block);
    }
}

#[test]
fn one_word_of_a_cube_and_of_a_stack() {
    for dimension in [3, 4] {
        let mut block = vec![0; 4usize.pow(dimension)];
        block[0] = 1;
        let p = Params::from_numbers(0, dimension, 1, 32, 1024, MIN_LOWEST);
        stores(p, &block, &by_hand::first_word_code(dimension), 32);
    }
}

/// The lossy transform and its reading, in which the order of the axes shows.
#[test]
fn axis_by_axis_from_i_on_and_back() {
    for dimension in 2..=4 {
        let p = Params::from_numbers(0, dimension, 0, 32, 64, MIN_LOWEST);
        for axis in 0..dimension as usize - 1 {
            stores(p, &by_hand::axes_block(dimension, axis), &by_hand::axes_code(axis), 32);
            let (code, block) = by_hand::axes_slot(dimension, axis);
            let mut archive = [0; 8];
            bits(&code).iter().enumerate().for_each(|(t, &bit)| archive[t / 8] |= u8::from(bit) << (t % 8));
            let mut words = vec![9; block.len()];
            assert_eq!(read(p, &archive, 0, &mut words), Ok(Done { count: block.len(), planes: 32 }));
            let words: Vec<i32> = words.into_iter().map(|word| word as i32).collect();
            assert_eq!(words, block, "dimension {dimension}, axis {axis}");
        }
    }
}

/// 1 2 3 4 lifts to 2 -1 0 0, with a half of -1 on the way; in negabinary 6 3 0 0. The planes 31 to 3 are empty, then
/// come 1 0 0 0, 1 1 0 0 and 0 1 0 0.
#[test]
fn lossy_integers_cut_by_planes_and_by_the_budget() {
    let p = |planes, width| Params::from_numbers(0, 1, 0, planes, width, MIN_LOWEST);
    let block = [1, 2, 3, 4];
    let empty = "0".repeat(29);
    stores_and_reads(p(32, 64), &block, &format!("{empty} 110 1110 010"), 32, [0, 2, 2, 4]);
    stores_and_reads(p(31, 64), &block, &format!("{empty} 110 1110"), 31, [-1, 1, 3, 5]);
    stores_and_reads(p(30, 64), &block, &format!("{empty} 110"), 30, [4, 4, 4, 4]);
    stores_and_reads(p(32, 36), &block, &format!("{empty} 110 1110"), 31, [-1, 1, 3, 5]);
    // The last test is not read, and would have been 0. The words are the same, but the plane is not whole.
    stores_and_reads(p(32, 35), &block, &format!("{empty} 110 111"), 30, [-1, 1, 3, 5]);
    // The scan is cut right after its test, so the bit is set at place 1. That is where the one was.
    stores_and_reads(p(32, 34), &block, &format!("{empty} 110 11"), 30, [-1, 1, 3, 5]);
    // The test is cut, and no bit is set.
    stores_and_reads(p(32, 33), &block, &format!("{empty} 110 1"), 30, [2, 2, 2, 2]);
    stores_and_reads(p(32, 32), &block, &format!("{empty} 110"), 30, [4, 4, 4, 4]);
}

/// 0 0 0 16 lifts to 4 -5 -4 2, in negabinary 4 15 12 6. No coefficient is 0, so each step of reading matters. Here it
/// gives the block back.
#[test]
fn a_lossy_block_that_comes_back() {
    let p = Params::from_numbers(0, 1, 0, 32, 64, MIN_LOWEST);
    let code = format!("{} 101110 1111 0101 0100", "0".repeat(28));
    stores_and_reads(p, &[0, 0, 0, 16], &code, 32, [0, 0, 0, 16]);
}

/// 0 1 5 18 has the differences 0 1 3 6, in negabinary 0 1 7 26.
#[test]
fn differences_up_to_the_third() {
    let p = Params::from_numbers(0, 1, 1, 32, 64, MIN_LOWEST);
    let code = format!("11111 {} 1000 0001 0010 0011 0110", "0".repeat(27));
    stores_and_reads(p, &[0, 1, 5, 18], &code, 32, [0, 1, 5, 18]);
}

/// Four times 1.0: e is 128, the integers are 2^29, the planes as in P5. The head's 9 bits are part of the width.
#[test]
fn lossy_floats_have_a_head_of_9_bits() {
    let p = |planes, width| Params::from_numbers(1, 1, 0, planes, width, MIN_LOWEST);
    let ones = [ONE as i32; 4];
    stores_and_reads(p(3, 64), &[ONE; 4], "1 00000001 0 110 10", 3, ones);
    stores_and_reads(p(32, 16), &[ONE; 4], "1 00000001 0 110 10 0", 3, ones);
    // After the three planes 49 bits are left: 24 planes of two bits, and a bit.
    stores_and_reads(p(32, 64), &[ONE; 4], &format!("1 00000001 0 110 10 {}", "0".repeat(49)), 27, ones);
    stores_and_reads(p(32, 64), &[0x8000_0000, 0, 0, 0x8000_0000], "0", 0, [0; 4]);
    // After a first bit 0 the rest is not looked at.
    let mut words = [9; 4];
    assert_eq!(read(p(32, 16), &[0xFE, 0xFF], 0, &mut words), Ok(Done { count: 4, planes: 0 }));
    assert_eq!(words, [0; 4]);
}

/// Beside 1.0, for which m = 1, a value must be a whole multiple of 2^-29.
#[test]
fn the_form_with_e_is_for_whole_multiples() {
    let p = Params::from_numbers(1, 1, 1, 32, 146, MIN_LOWEST);
    let form = |words: &[u32; 4]| {
        let mut archive = [0; 19];
        store(p, &mut archive, 0, words).map(|_| archive[0] & 3)
    };
    let power = |exponent: i32| ((127 + exponent) as u32) << 23;
    assert_eq!(form(&[ONE, power(-29), 0, 0]), Ok(0b01));
    assert_eq!(form(&[ONE, power(-29) | 1 << 31, 0, 0]), Ok(0b01));
    assert_eq!(form(&[ONE, power(-30), 0, 0]), Ok(0b11));
    assert_eq!(form(&[ONE, power(-28) | 1 << 22, 0, 0]), Ok(0b01));
    assert_eq!(form(&[ONE, power(-29) | 1 << 22, 0, 0]), Ok(0b11));
    assert_eq!(form(&[ONE, 0x8000_0000, 0, 0]), Ok(0b11));
    assert_eq!(form(&[ONE, 0x7F80_0000, 0, 0]), Ok(0b11));
    assert_eq!(form(&[ONE, 0x7FC0_0000, 0, 0]), Ok(0b11));
    // Every subnormal number is a multiple of 2^-149, and 2^(m-30) is 2^-156.
    assert_eq!(form(&[1, 0x807F_FFFF, 0, 0]), Ok(0b01));
}

/// Four times -0: 0x80000000 xor 0x7FFFFFFF is -1, in negabinary 3.
#[test]
fn minus_zeros_are_flipped_to_minus_ones() {
    let p = Params::from_numbers(1, 1, 1, 32, 146, MIN_LOWEST);
    stores(p, &[0x8000_0000; 4], &format!("11 11111 {} 110 10", "0".repeat(30)), 32);
}

#[test]
fn slot_counts() {
    let count_in = |mode, dimension, width, bytes| {
        let p = Params::from_numbers(0, dimension, mode, 32, width, MIN_LOWEST);
        slot_count(p, &vec![0; bytes]).map_err(|refusal| refusal.number())
    };
    // W = 0 stands for 8N in lossy mode: a byte short of three slots.
    for (dimension, bytes) in [(1, 11), (2, 47), (3, 191), (4, 767)] {
        assert_eq!(count_in(0, dimension, 0, bytes), Ok(2));
        assert_eq!(count_in(0, dimension, 0, bytes + 1), Ok(3));
    }
    // In exact mode for 33N + 14, 146, 542, 2,126 and 8,462 bits: four slots are whole bytes.
    for (dimension, bytes) in [(1, 73), (2, 271), (3, 1_063), (4, 4_231)] {
        assert_eq!(count_in(1, dimension, 0, bytes), Ok(4));
        assert_eq!(count_in(1, dimension, 0, bytes - 1), Ok(3));
    }
    let count = |dimension, width, bytes| count_in(1, dimension, width, bytes);
    assert_eq!(count(1, 17, 65_536), Ok(30_840));
    assert_eq!(count(1, 8_462, 1_057), Ok(0));
    assert_eq!(count(4, 8_462, 65_536), Ok(61));
    assert_eq!(count(1, 17, 65_537), Err(6));
}

/// Four times 1.0: m = 1, so in dimension 1 there are 5 - q planes.
#[test]
fn the_worked_blocks_of_the_lowest_exponent() {
    let p = |lowest| Params::from_numbers(1, 1, 0, 32, 64, lowest);
    let (ones, twos) = ([ONE as i32; 4], [0x4000_0000; 4]);
    stores_and_reads(p(300), &[ONE; 4], "0", 0, [0; 4]);
    stores_and_reads(p(5), &[ONE; 4], "0", 0, [0; 4]);
    stores_and_reads(p(4), &[ONE; 4], "1 00000001 0", 1, [0; 4]);
    stores_and_reads(p(3), &[ONE; 4], "1 00000001 0 110", 2, twos);
    stores_and_reads(p(2), &[ONE; 4], "1 00000001 0 110 10", 3, ones);
    // P is smaller.
    stores_and_reads(p(2).with_planes(2), &[ONE; 4], "1 00000001 0 110", 2, twos);
    stores_and_reads(p(-300).with_planes(1), &[ONE; 4], "1 00000001 0", 1, [0; 4]);
    // The smallest subnormal number, m = -126, and 2^127, m = 128.
    stores_and_reads(p(-122), &[1; 4], "0", 0, [0; 4]);
    stores_and_reads(p(-123), &[1; 4], "1 10000000 0", 1, [0; 4]);
    stores_and_reads(p(132), &[0x7F00_0000; 4], "0", 0, [0; 4]);
    stores_and_reads(p(131), &[0x7F00_0000; 4], "1 11111111 0", 1, [0; 4]);
    stores_and_reads(p(129), &[0x7F00_0000; 4], "1 11111111 0 110 10", 3, [0x7F00_0000; 4]);
}

/// Ones and readings in degrees, with every number of planes down to q and every P. What the readings come back as is worked
/// out too.
#[test]
fn planes_down_to_the_lowest_exponent() {
    for dimension in 1..=4 {
        for block in [on_paper::ones(dimension), on_paper::degrees(dimension)] {
            for to_lowest in -2..=34 {
                for planes in 1..=32 {
                    let lowest = block.lowest(to_lowest);
                    let p = Params::from_numbers(1, dimension, 0, planes, 8_462, lowest);
                    let coded = planes.min(to_lowest.max(0) as u32);
                    let code = if coded == 0 { "0".to_string() } else { block.code(coded) };
                    let archive = stores(p, &block.words, &code, coded);
                    let mut back = vec![9; block.words.len()];
                    let done = Done { count: back.len(), planes: coded };
                    assert_eq!(read(p, &archive, 0, &mut back), Ok(done), "{p:?}");
                    if block.m == Some(4) {
                        let line = on_paper::degrees_read(coded);
                        let line = line.map(|parts| (parts * on_paper::PART).to_bits());
                        assert!(back.chunks(4).all(|words| words == line), "{p:?}");
                    }
                }
            }
        }
    }
}

/// A first bit 1 whose e leaves no planes: zeros, whatever follows. e = 0 is m = -127, e = 255 is m = 128.
#[test]
fn a_first_bit_1_with_no_planes() {
    for (dimension, more) in [(1, 4), (2, 6), (3, 8), (4, 10)] {
        for (e, m) in [(0, -127), (1, -126), (128, 1), (254, 127), (255, 128)] {
            let reads = |lowest, rest: u8| {
                let p = Params::from_numbers(1, dimension, 0, 32, 16, lowest);
                let mut words = vec![9; 4usize.pow(dimension)];
                let archive = [1 | (e << 1) as u8, (e >> 7) as u8 | rest << 1];
                let done = read(p, &archive, 0, &mut words).expect("every lossy slot is read");
                (done.planes, words)
            };
            for rest in [0, 0x2D, 0x55, 0x7F] {
                for lowest in [m + more, m + more + 1, 300] {
                    assert_eq!(reads(lowest, rest), (0, vec![0; 4usize.pow(dimension)]));
                }
            }
            // A plane more: an empty one, and one that has a one at place 0.
            assert_eq!(reads(m + more - 1, 0), (1, vec![0; 4usize.pow(dimension)]));
            let (planes, words) = reads(m + more - 1, 0x03);
            assert!(planes == 1 && words.iter().all(|&word| word == words[0] && word >> 31 == 1));
        }
    }
}
