//! The pieces: transforms, order, planes, float conversions.

mod common;
use common::*;
use reference::{floats, planes, transform, words};

#[test]
fn halving_rounds_down() {
    use reference::words::Word;
    assert_eq!((-1i32 as u32).half() as i32, -1);
    assert_eq!((-3i32 as u32).half() as i32, -2);
    assert_eq!(3u32.half(), 1);
    assert_eq!((i32::MIN as u32).half() as i32, i32::MIN / 2);
    assert_eq!((-1i64 as u64).half() as i64, -1);
}

#[test]
fn the_order_is_document_01s_table() {
    for dimension in 1..=4 {
        let places = transform::order(dimension);
        for (number, place) in by_hand::order(dimension) {
            assert_eq!(places[number], place, "dimension {dimension}, number {number}");
        }
    }
}

#[test]
fn every_place_has_its_number_in_the_order() {
    for dimension in 1..=4 {
        let mut places = transform::order(dimension);
        places.sort();
        assert!(places.into_iter().eq(0..4usize.pow(dimension)));
    }
}

#[test]
fn differences_are_undone_and_lifts_nearly() {
    let mut random = Random::new(77);
    for _ in 0..10_000 {
        let block = [0; 4].map(|_: u32| random.word());
        assert_eq!(transform::sums(transform::differences(block)), block);
        // Small values lose at most a few units in a lift and its inverse.
        let small = block.map(|word| ((word as i32) >> 3) as u32);
        let back = transform::unlift(transform::lift(small));
        for (a, b) in small.into_iter().zip(back) {
            assert!((a as i32 - b as i32).abs() <= 3);
        }
        let c = random.word();
        assert_eq!(words::from_negabinary(words::to_negabinary(c)), c);
    }
}

#[test]
fn differences_are_binomial() {
    let block = [3u32, 10, 60, 1000];
    let [x, y, z, w] = block.map(|word| word as i32);
    let expected = [x, y - x, z - 2 * y + x, w - 3 * z + 3 * y - x].map(|c| c as u32);
    assert_eq!(transform::differences(block), expected);
}

#[test]
fn planes_come_back_and_meet_the_bound() {
    let mut random = Random::new(99);
    for n in [4usize, 16, 64, 256] {
        for p in 1..=32 {
            for spread in 0..40 {
                let block: Vec<u32> =
                    (0..n).map(|_| random.word() >> random.below(1 + spread % 32)).collect();
                let code = planes::code(&block, p);
                assert!(code.len() < n * p as usize + n);
                let kept: Vec<u32> = block.iter().map(|word| word & !(u32::MAX as u64 >> p) as u32).collect();
                assert_eq!(planes::read::<u32>(&code, n, p), (kept, p));
            }
            let full = vec![u32::MAX; n];
            assert_eq!(planes::code(&full, p).len(), n * p as usize + n - 1);
        }
    }
}

#[test]
fn planes_of_64_bit_words() {
    let block = [u64::MAX, 1, 0, 0x8000_0000_0000_0000];
    for p in 1..=64 {
        let code = planes::code(&block, p);
        assert!(code.len() < 4 * p as usize + 4);
        let kept = block.map(|word| if p == 64 { word } else { word & !(u64::MAX >> p) });
        assert_eq!(planes::read::<u64>(&code, 4, p), (kept.to_vec(), p));
    }
}

/// The only bit that can be set without having been coded is the one of a cut scan: it is in the first plane that is not whole, and that plane
/// has its one further on.
#[test]
fn reading_a_cut_code_sets_at_most_one_other_bit() {
    let mut random = Random::new(5);
    let mut seen = 0;
    for _ in 0..200 {
        let block: Vec<u32> = (0..16).map(|_| random.word() >> random.below(32)).collect();
        let code = planes::code(&block, 32);
        for budget in 0..=code.len() {
            let cut = planes::code_within(&block, 32, budget).bits;
            let (read, whole) = planes::read::<u32>(&cut, 16, 32);
            let others: Vec<usize> = (0..16).filter(|&place| read[place] & !block[place] != 0).collect();
            assert!(others.len() <= 1);
            for place in others {
                let bit = 1 << (31 - whole);
                assert_eq!(read[place] & !block[place], bit);
                assert!(block[place + 1..].iter().any(|word| word & bit != 0));
                seen += 1;
            }
        }
    }
    assert!(seen > 0, "no scan was cut before its one");
}

/// The rounding of integer x 2^(e-157) to binary32 in integer arithmetic alone.
fn to_pattern_by_integers(e: u32, integer: u32) -> u32 {
    let sign = integer & 0x8000_0000;
    let magnitude = u128::from((integer as i32).unsigned_abs());
    if magnitude == 0 {
        return 0;
    }
    // In units of 2^-157. A binary32 value has 24 bits and is a whole multiple of 2^-149, that is of 2^8 units.
    // A large e is lifted out, so that the number fits.
    let units = magnitude << e.min(90);
    let lifted = e - e.min(90);
    let length = 128 - units.leading_zeros();
    let dropped = (length.saturating_sub(24)).max(if lifted == 0 { 8 } else { 0 });
    let kept = units >> dropped;
    let rest = units - (kept << dropped);
    let half = (1u128 << dropped) >> 1;
    let up = dropped > 0 && (rest > half || rest == half && kept & 1 == 1);
    let kept = (kept + u128::from(up)) as u32;
    // The pattern of kept x 2^(dropped + lifted) units: fields add up, a carry moves the exponent.
    if kept == 0 {
        return sign;
    }
    let shift = dropped + lifted;
    let (kept, shift) = if kept < 1 << 23 && shift > 8 {
        let more = (kept.leading_zeros() - 8).min(shift - 8);
        (kept << more, shift - more)
    } else {
        (kept, shift)
    };
    let pattern = if shift == 8 { kept } else { kept + ((shift - 8) << 23) };
    sign | pattern.min(0x7F80_0000)
}

#[test]
fn conversion_to_patterns_agrees_with_integer_arithmetic() {
    let mut random = Random::new(0xABCD);
    for e in 0..256 {
        for k in 0..32 {
            for around in -2i64..=2 {
                for sign in [1, -1] {
                    let i = (sign * ((1i64 << k) + around)) as u32;
                    assert_eq!(floats::to_pattern(e, i), to_pattern_by_integers(e, i), "e {e} i {i:#x}");
                }
            }
            for _ in 0..50 {
                let i = (random.word() as i32 >> random.below(32)) as u32;
                assert_eq!(floats::to_pattern(e, i), to_pattern_by_integers(e, i), "e {e} i {i:#x}");
            }
        }
    }
}

/// The value times 2^(157-e), cut, in integer arithmetic alone.
fn to_integer_by_integers(e: u32, word: u32) -> u32 {
    let field = floats::exponent_field(word);
    let significand = u64::from(word & 0x007F_FFFF) | if field == 0 { 0 } else { 1 << 23 };
    // field 0 has the unit of field 1; the largest field below e is e - 1, with a factor of 2^6.
    let down = e - field.max(1);
    let magnitude = if down > 60 { 0 } else { significand << 7 >> down } as u32;
    if word >> 31 == 1 { magnitude.wrapping_neg() } else { magnitude }
}

#[test]
fn conversion_to_integers_agrees_with_integer_arithmetic() {
    let mut random = Random::new(0xEF01);
    for e in 1..256 {
        for field in 0..e.min(255) {
            for _ in 0..20 {
                let fraction = (random.word() >> 9) << random.below(24) & 0x007F_FFFF;
                for sign in [0, 0x8000_0000] {
                    let word = sign | field << 23 | fraction;
                    assert_eq!(
                        floats::to_integer(e, word),
                        to_integer_by_integers(e, word),
                        "e {e} {word:#x}"
                    );
                }
            }
        }
    }
}

#[test]
fn rounding_by_hand() {
    // e = 157: the integer itself.
    assert_eq!(floats::to_pattern(157, 1), 0x3F80_0000);
    assert_eq!(floats::to_pattern(157, -1i32 as u32), 0xBF80_0000);
    // Ties go to even: 2^24 + 1 down, 2^24 + 3 up.
    assert_eq!(floats::to_pattern(157, (1 << 24) + 1), 0x4B80_0000);
    assert_eq!(floats::to_pattern(157, (1 << 24) + 3), 0x4B80_0002);
    // Below the subnormals: 2^-150 is a tie with zero, one more is not; the sign stays.
    assert_eq!(floats::to_pattern(0, 0x80), 0);
    assert_eq!(floats::to_pattern(0, 0x81), 1);
    assert_eq!(floats::to_pattern(0, -0x80i32 as u32), 0x8000_0000);
    assert_eq!(floats::to_pattern(0, 0), 0);
    // The largest finite value and the tie above it.
    assert_eq!(floats::to_pattern(255, 0x3FFF_FFC0), 0x7F7F_FFFF);
    assert_eq!(floats::to_pattern(255, 0x3FFF_FFDF), 0x7F7F_FFFF);
    assert_eq!(floats::to_pattern(255, 0x3FFF_FFE0), 0x7F80_0000);
    assert_eq!(floats::to_pattern(255, 0x8000_0000), 0xFF80_0000);
}
