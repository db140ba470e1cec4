//! Figures that the sources print, run with the proved library and with libzfp.
//!
//! Document 004 has an example of group testing. Document 002 has the largest sizes of blocks (its question 28), the
//! precisions that lose nothing (21), a bound on the error (20), how the modes stand for one another, and what its
//! fixed-accuracy mode promises.

use random::{Random, rounds};
use reference::floats::{common_exponent, to_integer};
use reference::transform::{from_coefficients, lift, sums, to_coefficients, unlift};
use reference::words::{from_negabinary, to_negabinary};
use reference::{Params, bits};
use testing::{EXACT, FLOATS, INTEGERS, LOSSY, MIN_LOWEST};
use zfp::bits::padded;
use zfp::classes::Class;
use zfp::compare::Comparison;
use zfp::libzfp::{Libzfp, Setting, checked, shape};
use zfp::make::any_block;
use zfp::tally::Origin;

/// The widest slot takes every code.
const WIDEST: u32 = 8462;

/// The rounds in a dimension. A comparison of larger blocks takes longer.
fn rounds_in(dimension: u32, count: usize) -> usize {
    rounds(count.div_ceil([1, 1, 5, 20][dimension as usize - 1]))
}

fn comparison() -> Comparison {
    Comparison::new(Libzfp::find().unwrap_or_else(|message| panic!("{message}")))
}

/// Digits as the paper prints them, the highest first, as bits, the lowest first.
fn printed(digits: &str) -> Vec<bool> {
    digits.chars().rev().map(|digit| digit == '1').collect()
}

/// Writes a block with both; the slot must begin with these bits and then be zero, and both must read it alike.
/// Gives the words that were read.
fn both_write(p: &Params, words: &[u32], code: &[bool]) -> Vec<u32> {
    let mut comparison = comparison();
    let written = comparison.write(p, words);
    let slot = padded(code, checked(p).width);
    assert_eq!(written.ours.as_ref(), Some(&slot));
    assert_eq!((written.reply.count as usize, &written.theirs[..]), (code.len(), code));
    let read = comparison.read(p, &slot, Origin::Both);
    assert_eq!(read.ours.as_ref(), Some(&read.theirs));
    assert!(comparison.failures.is_empty(), "{:?}", comparison.failures);
    read.theirs
}

/// Document 004's example, which is document 01's P9: a plane in which n = 1 and the other 15 bits are x. The plane
/// above it gets n to 1, the one below has 11 bits as they are and shows that n has become 11.
#[test]
fn group_testing_of_document_004() {
    let x = printed("000001001101000");
    let code = printed("010011110110001");
    let below = printed("10010111001");
    for first in [false, true] {
        // Three planes from `top` downward.
        let coefficients = |top: u32| -> Vec<u32> {
            let second = |place: usize| if place == 0 { first } else { x[place - 1] };
            let third = |place: usize| below.get(place).copied().unwrap_or(false);
            let planes = |place| [place == 0, second(place), third(place)];
            let word = |place| planes(place).iter().fold(0, |word, &bit| word << 1 | u32::from(bit));
            (0..16).map(|place| word(place) << (top - 2)).collect()
        };
        let planes = [&[true, true, false, first], &code[..], &below[..], &[false]].concat();
        let p =
            Params { kind: INTEGERS, dimension: 2, mode: EXACT, planes: 32, width: 64, lowest: MIN_LOWEST };
        let words = from_coefficients(&coefficients(31), 2, sums);
        assert_eq!(both_write(&p, &words, &[&bits::number(2, 5), &planes[..]].concat()), words);
        // Lossy, with 19 empty planes above and 10 below of 11 zeros and a test each.
        let p = Params { mode: LOSSY, width: 1024, ..p };
        let words = from_coefficients(&coefficients(12), 2, unlift);
        assert_eq!(both_write(&p, &words, &[&[false; 19], &planes[..], &[false; 120]].concat()), words);
    }
}

/// Document 002's table of the largest sizes: kind, mode, and the bits in dimensions 1 to 4.
const LARGEST: [(u32, u32, [usize; 4]); 4] = [
    (INTEGERS, LOSSY, [131, 527, 2111, 8447]),
    (INTEGERS, EXACT, [136, 532, 2116, 8452]),
    (FLOATS, LOSSY, [140, 536, 2120, 8456]),
    (FLOATS, EXACT, [146, 542, 2126, 8462]),
];

/// No block is larger, for either program. The exact sizes of integers are reached; the others are bounds.
#[test]
fn largest_sizes_of_document_002() {
    let mut random = Random::new(3);
    for (kind, mode, sizes) in LARGEST {
        for (dimension, largest) in (1..).zip(sizes) {
            let mut comparison = comparison();
            let p = Params { kind, dimension, mode, planes: 32, width: WIDEST, lowest: MIN_LOWEST };
            let n = 4usize.pow(dimension);
            for _ in 0..rounds_in(dimension, 4_000) {
                let written = comparison.write(&p, &any_block(&mut random, n));
                assert!(written.theirs.len() <= largest && written.reply.count as usize <= largest);
            }
            if kind == INTEGERS && mode == EXACT {
                let words = from_coefficients(&vec![u32::MAX; n], dimension, sums);
                let written = comparison.write(&p, &words);
                assert_eq!((written.theirs.len(), written.reply.count as usize), (largest, largest));
            }
            assert!(comparison.failures.is_empty());
        }
    }
}

/// Each program reads what it has written, and both must have the same words: where the slot is wide enough for the
/// whole code, what is lost does not depend on the order of coefficients.
fn stored_and_read(comparison: &mut Comparison, p: &Params, words: &[u32]) -> Vec<u32> {
    let written = comparison.write(p, words);
    let slot = written.ours.expect("a finite block can be stored");
    let ours = comparison.read(p, &slot, Origin::Ours).ours;
    let theirs = comparison.read(p, &padded(&written.theirs, slot.len()), Origin::Theirs).theirs;
    assert_eq!(ours.as_ref(), Some(&theirs), "{p:?} {words:x?}");
    theirs
}

/// Signed integers of b bits, shifted left by 31 - b, come back from b + 4d + 1 planes, for b up to 27, 23, 19 and 15 in
/// dimensions 1 to 4.
#[test]
fn precisions_that_lose_no_integer() {
    let mut random = Random::new(4);
    let mut comparison = comparison();
    for (dimension, most) in [(1, 27), (2, 23), (3, 19), (4, 15)] {
        assert_eq!(most + 4 * dimension + 1, 32);
        for b in 1..=most {
            let planes = b + 4 * dimension + 1;
            let p =
                Params { kind: INTEGERS, dimension, mode: LOSSY, planes, width: WIDEST, lowest: MIN_LOWEST };
            for _ in 0..rounds_in(dimension, 200) {
                let small = random.word_below(b);
                let mut word = || ((random.word() as i32 >> (32 - b + small)) << (31 - b)) as u32;
                let words: Vec<u32> = (0..4usize.pow(dimension)).map(|_| word()).collect();
                assert_eq!(stored_and_read(&mut comparison, &p, &words), words, "{b} bits");
            }
        }
    }
    assert!(comparison.failures.is_empty());
}

/// Floats of one exponent come back from 26 + 4d planes, which 32 allows in dimension 1 only. The fields below 29 are
/// left out: there libzfp's scale overflows.
#[test]
fn the_precision_that_loses_no_float_of_one_exponent() {
    let mut random = Random::new(5);
    let mut comparison = comparison();
    let p = Params { kind: FLOATS, dimension: 1, mode: LOSSY, planes: 30, width: 1024, lowest: MIN_LOWEST };
    for field in 29..255 {
        for _ in 0..rounds(50) {
            let words: Vec<u32> = (0..4).map(|_| field << 23 | random.word() & 0x807F_FFFF).collect();
            assert_eq!(stored_and_read(&mut comparison, &p, &words), words);
        }
    }
    assert!(comparison.failures.is_empty());
}

/// Whether the sums of reading leave 32 bits for a block of floats cut to its upper planes: then the same reading with
/// words of 64 bits gives other integers.
fn reading_wraps(words: &[u32], dimension: u32, planes: u32) -> bool {
    let e = common_exponent(words);
    let integers: Vec<u32> = words.iter().map(|&word| to_integer(e, word)).collect();
    let coefficients = to_coefficients(&integers, dimension, lift);
    let cut: Vec<u32> = coefficients.iter().map(|u| u >> (32 - planes) << (32 - planes)).collect();
    let long = |word: u32| i64::from(word as i32) as u64;
    let cut_long: Vec<u64> = cut.iter().map(|&u| to_negabinary(long(from_negabinary(u)))).collect();
    let narrow = from_coefficients(&cut, dimension, unlift);
    let wide = from_coefficients(&cut_long, dimension, unlift);
    narrow.into_iter().map(long).ne(wide)
}

/// Half a unit in the last place of a finite pattern.
fn half_unit(word: u32) -> f64 {
    2f64.powi((word >> 23 & 255).max(1) as i32 - 151)
}

/// Floats of fields from 31 to 250, from which reading does not come to infinity.
fn floats(random: &mut Random, dimension: u32) -> Vec<u32> {
    let field = random.between(60, 250);
    (0..4usize.pow(dimension))
        .map(|_| (field - random.word_below(30)) << 23 | random.word() & 0x807F_FFFF)
        .collect()
}

/// With p planes the error is at most k 2^E / 2^p, where 2^E is the largest power of two in the block and k is 20 in
/// dimension 1 and 15/4 as much in each further one: 75, 1125/4 and 16875/16. (The text gives that product, and then
/// prints 125 for 75 and 16876/16 for the last.)
///
/// That is the error of cutting planes off. Cutting the values toward zero adds less than 2^(m-30), and the rounding to
/// binary32 half a unit in the last place. Blocks whose reading leaves 32 bits are left out; both programs read them
/// alike, and the bound does not hold of them.
#[test]
fn the_bound_on_the_error() {
    let mut random = Random::new(6);
    let mut comparison = comparison();
    for (dimension, k) in [(1, 20.0), (2, 75.0), (3, 1125.0 / 4.0), (4, 16875.0 / 16.0)] {
        let blocks = rounds_in(dimension, 100);
        for planes in 1..=32 {
            let p =
                Params { kind: FLOATS, dimension, mode: LOSSY, planes, width: WIDEST, lowest: MIN_LOWEST };
            let mut wrapped = 0;
            for _ in 0..blocks {
                let words = floats(&mut random, dimension);
                let back = stored_and_read(&mut comparison, &p, &words);
                if reading_wraps(&words, dimension, planes) {
                    wrapped += 1;
                    continue;
                }
                let m = common_exponent(&words) as i32 - 127;
                let bound = k * 2f64.powi(m - 1 - planes as i32) + 2f64.powi(m - 30);
                for (&word, back) in words.iter().zip(back) {
                    let error = f64::from(f32::from_bits(word)) - f64::from(f32::from_bits(back));
                    assert!(
                        error.abs() <= bound + half_unit(back),
                        "{p:?} {words:x?}: {error} above {bound}"
                    );
                }
            }
            assert!(10 * wrapped < blocks, "{p:?}: {wrapped} blocks left out");
        }
    }
    assert!(comparison.failures.is_empty());
}

/// Fixed rate r is a slot of r x N bits, so W = 0 is the rate 8 in lossy mode; fixed precision is P planes and no budget.
#[test]
fn fixed_rate_and_fixed_precision() {
    let mut random = Random::new(7);
    let mut comparison = comparison();
    for k in 0..8 {
        let (kind, dimension) = (k & 1, 1 + (k >> 1));
        let n = 4usize.pow(dimension);
        for _ in 0..rounds_in(dimension, 3_000) {
            let words = any_block(&mut random, n);
            let rate = random.between(if dimension == 1 { 4 } else { 1 }, 32);
            let planes = random.between(1, 32);
            let slots = Params {
                kind,
                dimension,
                mode: LOSSY,
                planes: 32,
                width: rate * n as u32,
                lowest: MIN_LOWEST,
            };
            let by_default = Params { width: 0, ..slots };
            let whole = Params { planes, width: WIDEST, ..slots };
            let cases = [
                (slots, Setting::Rate(f64::from(rate))),
                (by_default, Setting::Rate(8.0)),
                (whole, Setting::Precision(planes)),
            ];
            for (p, setting) in cases {
                let written = comparison.write(&p, &words);
                // Ours, or ours but for the order of coefficients.
                let (None | Some(Class::TieOrder)) = written.class else {
                    continue;
                };
                let width = checked(&p).width;
                let theirs = comparison.lib.encode(shape(&checked(&p)), setting, &words);
                assert_eq!(padded(&written.theirs, width), padded(&theirs, width), "{p:?} {words:x?}");
            }
        }
    }
    assert!(comparison.failures.is_empty());
}

/// Fixed accuracy is a lowest exponent, all planes and no budget: libzfp is handed the tolerance itself.
#[test]
fn fixed_accuracy() {
    let mut random = Random::new(8);
    let mut comparison = comparison();
    for dimension in 1..=4 {
        let n = 4usize.pow(dimension);
        for _ in 0..rounds_in(dimension, 2_000) {
            let words = any_block(&mut random, n);
            // Powers of two and numbers between them: q is the largest with 2^q at most the tolerance.
            let lowest = random.below(601) as i32 - 300;
            let power = 2f64.powi(lowest);
            let tolerance = if random.once_in(3) { power } else { power * (1.0 + random.part()) };
            let width = 33 * n as u32 + 14;
            let p = Params { kind: FLOATS, dimension, mode: LOSSY, planes: 32, width, lowest };
            let written = comparison.write(&p, &words);
            if written.class != Some(Class::NotFinite) {
                let theirs = comparison.lib.encode(shape(&checked(&p)), Setting::Accuracy(tolerance), &words);
                assert_eq!(written.theirs, theirs, "{tolerance:e} {p:?} {words:x?}");
            }
        }
    }
    assert!(comparison.failures.is_empty());
}

/// Document 002 says of fixed accuracy that values come back off by at most 2^q, but not below the precision of the largest value
/// of a block. Where at most 32 planes end at q, no block tested is further off, with either program, if a value of it is 2^(q - 1) or
/// more. Where all are smaller, sums can wrap around, in both programs alike, and values be off by nearly 1.5 x 2^q.
#[test]
fn the_tolerance_of_fixed_accuracy() {
    let mut random = Random::new(9);
    let mut comparison = comparison();
    for dimension in 1..=4 {
        for planes in 0..=32 {
            for _ in 0..rounds_in(dimension, 60) {
                let words = floats(&mut random, dimension);
                let m = common_exponent(&words) as i32 - 127;
                let lowest = m + 2 * (dimension as i32 + 1) - planes;
                let p = Params { kind: FLOATS, dimension, mode: LOSSY, planes: 32, width: WIDEST, lowest };
                let most = if m < lowest { 1.5 } else { 1.0 };
                let back = stored_and_read(&mut comparison, &p, &words);
                for (&word, back) in words.iter().zip(back) {
                    let error = f64::from(f32::from_bits(word)) - f64::from(f32::from_bits(back));
                    assert!(error.abs() <= most * 2f64.powi(lowest), "{p:?} {words:x?}: {error}");
                }
            }
        }
    }
    assert!(comparison.failures.is_empty());
}
