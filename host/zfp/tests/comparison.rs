//! The comparison with libzfp, for some seconds; for minutes with `WINDLASSOW_LONG=1`.

use random::{Random, is_long, rounds};
use reference::params::Mode;
use reference::{Params, bits, planes};
use testing::MIN_LOWEST;
use testing::by_hand::integers::{LARGEST, MOST_BITS, off, within};
use zfp::bits::{bits_of, padded};
use zfp::classes::{Call, Class};
use zfp::compare::Comparison;
use zfp::libzfp::{Libzfp, longest_code};
use zfp::report::{cut_scans, lowest, orders, planes as planes_asked, reading, writing};
use zfp::run::run;
use zfp::tally::Origin;
use zfp::witness::WITNESSES;

/// The report that must hold what the comparison counts.
const REPORT: &str = include_str!("../../../docs/DIFFERENCES.md");

fn lib() -> Libzfp {
    Libzfp::find().unwrap_or_else(|message| panic!("{message}"))
}

/// Fails with the first of them, if there are any.
fn none(failures: &[String]) {
    assert!(failures.is_empty(), "{} failures, the first: {}", failures.len(), failures[0]);
}

/// Every difference has a class, every class occurs where it is stated, and every block and slot is counted once. The planes
/// of lossy blocks are libzfp's.
fn is_explained(comparison: &Comparison) {
    none(&comparison.failures);
    none(&comparison.tally.complaints());
    for (_, mode, _, row) in comparison.tally.rows() {
        for asked in row.planes {
            assert_eq!((asked.equal, mode == Mode::Lossy), (asked.times, asked.times > 0));
        }
        assert_eq!(row.codes_equal + row.differences(Call::Write), row.blocks);
        assert_eq!(row.words_equal + row.differences(Call::Read), row.slots.iter().sum::<u64>());
    }
}

fn is_reported(lines: &[String]) {
    for line in lines {
        assert!(REPORT.contains(line), "docs/DIFFERENCES.md lacks the line: {line}");
    }
}

#[test]
fn every_difference_has_a_class() {
    let comparison = run(lib(), 1, 1);
    is_explained(&comparison);
    is_reported(&writing(&comparison.tally));
    is_reported(&reading(&comparison.tally));
    for call in Call::ALL {
        is_reported(&planes_asked(&comparison.tally, call));
    }
    is_reported(&lowest(&comparison.tally));
    is_reported(&cut_scans(&comparison.tally));
    is_reported(&orders(&comparison.lib));
    if is_long() {
        is_explained(&run(lib(), 2, 40));
    }
}

#[test]
fn the_examples_are_in_their_classes() {
    let mut comparison = Comparison::new(lib());
    for witness in WITNESSES {
        let (lines, class) = witness.show(&mut comparison);
        assert_eq!(class, Some(witness.class), "{lines:?}");
        is_reported(&lines);
    }
    none(&comparison.failures);
}

/// libzfp asks for lossy integers of a magnitude below 2^30. Larger ones overflow its sums, which C leaves undefined;
/// in this build they are taken modulo 2^32, as document 01 has it. So there is no difference but that of the order.
#[test]
fn lossy_integers_above_libzfps_range() {
    let mut random = Random::new(8);
    let mut comparison = Comparison::new(lib());
    for (dimension, count) in [(1, 10_000), (2, 10_000), (3, 2_000), (4, 500)] {
        for _ in 0..rounds(count) {
            let mut words: Vec<u32> = (0..4usize.pow(dimension)).map(|_| random.word()).collect();
            // The two highest bits differ, so the magnitude of one word at least is 2^30 or more.
            words[0] = words[0] & 0xBFFF_FFFF | !words[0] >> 1 & 0x4000_0000;
            let planes = random.between(1, 32);
            let p = Params {
                kind: 0,
                dimension,
                mode: 0,
                planes,
                width: random.between(16, 8462),
                lowest: MIN_LOWEST,
            };
            let class = comparison.write(&p, &words).class;
            assert!(class.is_none() || dimension > 2 && class == Some(Class::TieOrder), "{p:?}");
        }
    }
    none(&comparison.failures);
}

/// M-107: from slots that cut nothing both programs give the same integers back, as near to those stored as document 02 says.
#[test]
fn lossy_integers_come_back_alike() {
    let mut random = Random::new(107);
    let mut comparison = Comparison::new(lib());
    for _ in 0..rounds(10_000) {
        let width = random.between(MOST_BITS, 300);
        let p = Params { kind: 0, dimension: 1, mode: 0, planes: 32, width, lowest: MIN_LOWEST };
        let shift = random.between(1, 31);
        let values = [0; 4].map(|_: i32| (random.word() as i32 >> shift).max(-LARGEST));
        let written = comparison.write(&p, &values.map(|value| value as u32));
        let slot = written.ours.expect("a lossy store of integers is done");
        let read = comparison.read(&p, &slot, Origin::Both);
        assert_eq!((written.class, read.class), (None, None), "{p:?} {values:?}");
        let back = [0, 1, 2, 3].map(|place| read.theirs[place] as i32);
        assert!(within(off(values, back)), "{p:?} {values:?}: {back:?}");
    }
    none(&comparison.failures);
}

/// Class A by itself: equal floats are whole multiples, so document 01's form has bits 1 0. libzfp's has too exactly
/// from the exponent field 29 on. Only the first coefficient is not 0, so the order does not matter.
#[test]
fn the_scale_overflows_below_the_field_29() {
    let mut comparison = Comparison::new(lib());
    for dimension in 1..=4 {
        let width = longest_code(dimension) as u32;
        for field in 0..255 {
            let words = vec![field << 23 | 0x0040_0000; 4usize.pow(dimension)];
            for mode in [0, 1] {
                let p = Params { kind: 1, dimension, mode, planes: 32, width, lowest: MIN_LOWEST };
                let class = comparison.write(&p, &words).class;
                assert_eq!(class, (field < 29).then_some(Class::ScaleOverflow), "field {field}");
            }
        }
    }
    none(&comparison.failures);
}

/// Class C by itself: the first coefficient is 2^28 and the others are 0, so all values are 2^28 times 2^(e-157), a
/// number that binary32 has for every e. libzfp reads it exactly from e = 8 on.
#[test]
fn the_scale_underflows_below_e_8() {
    let mut comparison = Comparison::new(lib());
    for dimension in 1..=4 {
        let width = longest_code(dimension);
        let mut coefficients = vec![0u32; 4usize.pow(dimension)];
        coefficients[0] = 1 << 28;
        for e in 0..256 {
            let mut slot = vec![true];
            slot.extend(bits::number(e, 8));
            slot.extend(planes::code(&coefficients, 32));
            let p =
                Params { kind: 1, dimension, mode: 0, planes: 32, width: width as u32, lowest: MIN_LOWEST };
            let read = comparison.read(&p, &padded(&slot, width), Origin::Made);
            assert_eq!(read.class, (e < 8).then_some(Class::ScaleUnderflow), "e = {e}");
        }
    }
    none(&comparison.failures);
}

/// q by itself: equal floats, of which only the first coefficient is not 0, so that the order does not matter. With every number of
/// planes down to q, and with P above and below it, both codes are the same and both read them alike.
#[test]
fn planes_down_to_a_lowest_exponent() {
    let mut comparison = Comparison::new(lib());
    for dimension in 1..=4 {
        let width = longest_code(dimension) as u32;
        let step = [1, 3, 11, 45][dimension as usize - 1];
        for field in (29..255u32).step_by(step) {
            let words = vec![field << 23 | 0x0055_5555; 4usize.pow(dimension)];
            for to_lowest in -2..=34 {
                let lowest = field as i32 - 126 + 2 * (dimension as i32 + 1) - to_lowest;
                let planes = [1, 7, 20, 31, 32][field as usize % 5];
                let p = Params { kind: 1, dimension, mode: 0, planes, width, lowest };
                let written = comparison.write(&p, &words);
                assert_eq!(written.class, None, "{p:?}");
                assert_eq!(written.reply.planes, planes.min(to_lowest.max(0) as u32), "{p:?}");
                let read = comparison.read(&p, &written.ours.expect("it is stored"), Origin::Both);
                assert_eq!(read.class, None, "{p:?}");
            }
        }
    }
    none(&comparison.failures);
}

/// A first bit 1 whose e leaves no planes, and any bits after it: both read zeros, with every e and at both ends of what leaves none.
#[test]
fn slots_of_no_planes() {
    let mut random = Random::new(9);
    let mut comparison = Comparison::new(lib());
    for dimension in 1..=4 {
        for e in 0..256u32 {
            let first = e as i32 - 127 + 2 * (dimension as i32 + 1);
            for lowest in [first, first + 1, 300] {
                let mut slot = vec![true];
                slot.extend(bits::number(e, 8));
                slot.extend((0..40).map(|_| random.once_in(2)));
                let p = Params { kind: 1, dimension, mode: 0, planes: 32, width: 49, lowest };
                let read = comparison.read(&p, &slot, Origin::Made);
                let zeros = vec![0; 4usize.pow(dimension)];
                assert_eq!((read.ours.as_ref(), &read.theirs), (Some(&zeros), &zeros), "{p:?}");
                assert_eq!((read.reply.planes, read.taken), (0, 9), "{p:?}");
            }
        }
    }
    none(&comparison.failures);
}

/// All slots of the smallest width, in every kind and mode of dimensions 1 and 2, and a part of them in 3 and 4.
#[test]
fn every_slot_of_16_bits() {
    let mut comparison = Comparison::new(lib());
    let planes = if is_long() { (1..=32).collect() } else { vec![32] };
    for planes in planes {
        for k in 0..16 {
            let p = Params {
                kind: k & 1,
                dimension: 1 + (k >> 1 & 3),
                mode: k >> 3,
                planes,
                width: 16,
                lowest: MIN_LOWEST,
            };
            let step = [1, 1, 17, 151][p.dimension as usize - 1];
            for slot in (0..=u16::MAX).step_by(step) {
                comparison.read(&p, &bits_of(&slot.to_le_bytes(), 16), Origin::Made);
            }
        }
    }
    none(&comparison.failures);
}
