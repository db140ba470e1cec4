//! Blocks of every sort in slots of every sort.

use crate::common::*;
use crate::compare::*;
use crate::make::*;
use reference::{Params, transform};
use testing::by_hand;

/// Each width in every dimension, with a kind and mode that are drawn; in the two smaller dimensions those up to 560 with all
/// kinds and modes, and more often.
#[test]
fn every_width_kind_dimension_and_mode() {
    let mut random = Random::new(1);
    let mut answers = Answers::none();
    for width in all_widths() {
        let drawn = (random.word_below(2), random.word_below(2));
        for (kind, dimension, mode) in all_kinds() {
            let count = if width <= 560 && dimension <= 2 { 6 } else { usize::from((kind, mode) == drawn) };
            for _ in 0..rounds(count) {
                let p = Params {
                    kind,
                    dimension,
                    mode,
                    planes: any_planes(&mut random),
                    width,
                    lowest: MIN_LOWEST,
                };
                let slots = 1 + random.below(5);
                let archive = archive_for(&mut random, &p, slots);
                let maker = random.below(MAKERS);
                let words = block(&mut random, maker, block_len(&p));
                answers.count(compare_all(&p, &archive, random.below(slots), &words).answer);
            }
        }
    }
    answers.must_include(&[0, 9, 10]);
}

#[test]
fn every_way_of_making_blocks() {
    let mut random = Random::new(2);
    for (kind, dimension, mode) in all_kinds() {
        let n = 4u32.pow(dimension);
        for maker in 0..MAKERS {
            for _ in 0..rounds_in(dimension, 250) {
                let full = [33 * n + 3, 33 * n + 4, 33 * n + 13, 33 * n + 14, 8_462];
                let narrow = [0, 16, 24, 40, 64, 97, 131, 200, 4 * n + 16, 12 * n, 20 * n];
                let width = if random.once_in(3) { random.pick(&full) } else { random.pick(&narrow) };
                let p = Params {
                    kind,
                    dimension,
                    mode,
                    planes: any_planes(&mut random),
                    width,
                    lowest: MIN_LOWEST,
                };
                let words = block(&mut random, maker, block_len(&p));
                let archive = archive_for(&mut random, &p, 2);
                compare_all(&p, &archive, 1, &words);
            }
        }
    }
}

#[test]
fn every_number_of_planes() {
    let mut random = Random::new(3);
    for planes in 1..=32 {
        for (kind, dimension, mode) in all_kinds() {
            for _ in 0..rounds_in(dimension, 20) {
                let width = any_width(&mut random, dimension);
                let p = Params { kind, dimension, mode, planes, width, lowest: MIN_LOWEST };
                let maker = random.below(MAKERS);
                let words = block(&mut random, maker, block_len(&p));
                let archive = archive_for(&mut random, &p, 1);
                compare_all(&p, &archive, 0, &words);
            }
        }
    }
}

#[test]
fn slots_at_every_bit_offset() {
    let mut random = Random::new(4);
    for (kind, dimension, mode) in all_kinds() {
        let n = 4u32.pow(dimension);
        for width in [17, 19, 33, 50, 71, 33 * n + 4, 33 * n + 5, 33 * n + 13, 33 * n + 14, 8_461] {
            let p = Params { kind, dimension, mode, planes: 32, width, lowest: MIN_LOWEST };
            let mut archive = random.bytes((9 * width as usize).div_ceil(8));
            for slot in 0..9 {
                for _ in 0..rounds_in(dimension, 2) {
                    let maker = random.below(MAKERS);
                    let words = block(&mut random, maker, block_len(&p));
                    compare_all(&p, &archive, slot, &words);
                    (_, archive) = compare_store(&p, &archive, slot, &words);
                }
            }
        }
    }
}

/// Words with bits of every weight: after a few planes all of a plane's bits are leading bits. With eight slots side by side and
/// sixteen widths in a row they start at every bit of a byte and are cut at every bit of one.
#[test]
fn leading_bits_from_every_bit_and_cut_at_every_bit() {
    let mut random = Random::new(18);
    for (kind, dimension, _) in all_kinds().filter(|kind| kind.2 == LOSSY) {
        let n = 4u32.pow(dimension);
        for width in (0..16).map(|more| 16 + 3 * n + more) {
            let p = Params { kind, dimension, mode: LOSSY, planes: 32, width, lowest: MIN_LOWEST };
            let mut archive = archive_for(&mut random, &p, 8);
            for slot in 0..8 {
                let words: Vec<u32> = (0..n).map(|_| random.word() & !0x0080_0000).collect();
                compare_all(&p, &archive, slot, &words);
                (_, archive) = compare_store(&p, &archive, slot, &words);
            }
        }
    }
}

#[test]
fn the_largest_archive_and_its_last_slot() {
    let mut random = Random::new(5);
    for width in [16, 17, 31, 136, 1024, 2_126, 8_461, 8_462] {
        for (kind, dimension, mode) in all_kinds() {
            let p = Params { kind, dimension, mode, planes: 32, width, lowest: MIN_LOWEST };
            let archive = random.bytes(65_536);
            let words = block(&mut random, 2, block_len(&p));
            let last = 8 * archive.len() / width as usize - 1;
            for slot in [0, 1, last / 2, last, last + 1] {
                compare_all(&p, &archive, slot, &words);
            }
        }
    }
}

/// One block at every budget up to the longest code, in the larger dimensions at some: cuts at every place of the
/// code, in tests, scans and verbatim bits.
#[test]
fn lossy_cuts_at_every_budget() {
    let mut random = Random::new(12);
    for (kind, dimension, _) in all_kinds().filter(|kind| kind.2 == LOSSY) {
        let step = [1, 1, 2, 13][dimension as usize - 1];
        for _ in 0..rounds(if dimension < 3 { 8 } else { 4 }) {
            let maker = random.pick(&[3, 4, 5, 6, 7, 10, 12, 13]);
            let p = Params {
                kind,
                dimension,
                mode: LOSSY,
                planes: any_planes(&mut random),
                width: 0,
                lowest: MIN_LOWEST,
            };
            let words = block(&mut random, maker, block_len(&p));
            let longest = (36 * 4u32.pow(dimension)).min(8_462);
            for width in (16 + random.word_below(step)..=longest).step_by(step as usize) {
                compare_all(&Params { width, ..p }, &vec![0xFF; width.div_ceil(8) as usize], 0, &words);
            }
        }
    }
}

/// Every slot of 33N + 4 bits takes every exact integer block, of 33N + 14 every exact float block, and some
/// integer block needs the 33N + 4.
#[test]
fn the_widths_that_take_every_exact_block() {
    let mut random = Random::new(13);
    for (kind, dimension, _) in all_kinds().filter(|kind| kind.2 == EXACT) {
        let n = 4u32.pow(dimension);
        let width = 33 * n + if kind == INTEGERS { 4 } else { 14 };
        let p = Params { kind, dimension, mode: EXACT, planes: 32, width, lowest: MIN_LOWEST };
        let archive = vec![0xFF; width.div_ceil(8) as usize];
        for maker in 0..MAKERS {
            for _ in 0..rounds_in(dimension, 200) {
                let words = block(&mut random, maker, n as usize);
                assert_eq!(compare_all(&p, &archive, 0, &words).answer, 0);
            }
        }
    }
    for dimension in 1..=4 {
        let n = 4u32.pow(dimension);
        let p = Params {
            kind: INTEGERS,
            dimension,
            mode: EXACT,
            planes: 32,
            width: 33 * n + 3,
            lowest: MIN_LOWEST,
        };
        let refused = compare_all(&p, &vec![0; 5 * n as usize], 0, &by_hand::longest(dimension));
        assert_eq!((refused.answer, refused.count), (10, 33 * n + 4));
    }
}

/// Exact integer codes of every number of planes, up to the longest.
#[test]
fn every_count_of_exact_planes() {
    let mut random = Random::new(14);
    for dimension in 1..=4 {
        let n = 4usize.pow(dimension);
        let p = Params {
            kind: INTEGERS,
            dimension,
            mode: EXACT,
            planes: 32,
            width: 33 * n as u32 + 4,
            lowest: MIN_LOWEST,
        };
        for planes in 1..=32 {
            let top = u32::MAX << (32 - planes);
            for _ in 0..rounds_in(dimension, 40) {
                let case = random.below(3);
                let coefficients: Vec<u32> = match case {
                    0 => vec![top; n],
                    1 => (0..n).map(|_| random.word() & top).collect(),
                    _ => (0..n).map(|_| random.word() >> random.below(32) & top).collect(),
                };
                let words = transform::from_coefficients(&coefficients, dimension, transform::sums);
                let reply = compare_all(&p, &vec![0; 5 * n], 0, &words);
                assert!(reply.planes <= planes && (case != 0 || reply.planes == planes), "{words:x?}");
            }
        }
    }
}
