//! Slots that no store has written.

use crate::common::*;
use crate::compare::*;
use crate::make::*;
use reference::{Params, bits, transform};
use windlassow::MAX_WIDTH;

#[test]
fn one_damaged_bit() {
    let mut random = Random::new(6);
    let mut answers = Answers::none();
    for (kind, dimension, mode) in all_kinds() {
        let step = [1, 1, 3, 37][dimension as usize - 1];
        for _ in 0..rounds(if dimension < 3 { 16 } else { 6 }) {
            let width = any_width(&mut random, dimension).min(37 * 4u32.pow(dimension));
            let p = Params { kind, dimension, mode, planes: 32, width, lowest: MIN_LOWEST };
            let maker = random.below(MAKERS);
            let words = block(&mut random, maker, block_len(&p));
            let archive = archive_for(&mut random, &p, 3);
            let (_, stored) = compare_store(&p, &archive, 1, &words);
            for t in (random.below(step)..3 * width as usize).step_by(step) {
                let mut damaged = stored.clone();
                let bit = bits::get(&damaged, t);
                bits::set(&mut damaged, t, !bit);
                answers.count(compare_read(&p, &damaged, 1, words.len()).0.answer);
            }
        }
    }
    answers.must_include(&[0, 11]);
}

#[test]
fn many_damaged_bits() {
    let mut random = Random::new(7);
    for (kind, dimension, mode) in all_kinds() {
        for _ in 0..rounds_in(dimension, 1500) {
            let width = any_width(&mut random, dimension);
            let p =
                Params { kind, dimension, mode, planes: any_planes(&mut random), width, lowest: MIN_LOWEST };
            let maker = random.below(MAKERS);
            let words = block(&mut random, maker, block_len(&p));
            let (_, mut archive) = compare_store(&p, &vec![0; width.div_ceil(8) as usize], 0, &words);
            for _ in 0..2 + random.below(30) {
                let t = random.below(width as usize);
                let bit = bits::get(&archive, t);
                bits::set(&mut archive, t, !bit);
            }
            compare_read(&p, &archive, 0, words.len());
        }
    }
}

/// A slot that begins with the bits of a head, then has few or many ones, then perhaps zeros.
pub fn random_slot(random: &mut Random, p: &Params) -> Vec<u8> {
    let width = width_of(p);
    let mut archive = vec![0; width.div_ceil(8)];
    let often = random.pick(&[1, 2, 2, 3, 5, 10, 40]);
    let end = if random.once_in(2) { width } else { random.below(width + 1) };
    for t in 0..end {
        bits::set(&mut archive, t, random.once_in(often));
    }
    if random.once_in(2) {
        bits::set(&mut archive, 0, true);
    }
    archive
}

#[test]
fn random_slots() {
    let mut random = Random::new(8);
    let mut answers = Answers::none();
    for (kind, dimension, mode) in all_kinds() {
        for _ in 0..rounds_in(dimension, 5000) {
            let width = if random.once_in(2) { 0 } else { any_width(&mut random, dimension) };
            let p =
                Params { kind, dimension, mode, planes: any_planes(&mut random), width, lowest: MIN_LOWEST };
            let archive = random_slot(&mut random, &p);
            answers.count(compare_read(&p, &archive, 0, block_len(&p)).0.answer);
        }
    }
    answers.must_include(&[0, 11]);
}

/// All slots of the smallest width, in the larger dimensions every so many. What an exact read accepts, a store writes
/// again.
#[test]
fn every_slot_of_16_bits() {
    for (kind, dimension, mode) in all_kinds() {
        let p = Params { kind, dimension, mode, planes: 32, width: 16, lowest: MIN_LOWEST };
        let mut refused = 0;
        for slot in (0..=u16::MAX).step_by([1, 1, 1, 7][dimension as usize - 1]) {
            let archive = slot.to_le_bytes();
            let (given, words) = compare_read(&p, &archive, 0, block_len(&p));
            if given.answer != 0 {
                refused += 1;
            } else if mode == EXACT {
                let (stored, again) = compare_store(&p, &[0xFF; 2], 0, &words);
                assert_eq!((stored.answer, &again[..]), (0, &archive[..]));
            }
        }
        assert_eq!(refused == 0, mode == LOSSY);
    }
}

/// Puts bits one after the other.
fn put(archive: &mut [u8], at: &mut usize, code: &[bool]) {
    for &bit in code {
        if *at < 8 * archive.len() {
            bits::set(archive, *at, bit);
        }
        *at += 1;
    }
}

/// More than every exact block needs, as far as that is a width.
fn wide(dimension: u32) -> u32 {
    (33 * 4u32.pow(dimension) + 32).min(MAX_WIDTH)
}

/// Exact slots of good form whose e and p need not be a block's own: the border between 0 and 11.
#[test]
fn exact_slots_with_other_heads() {
    let mut random = Random::new(9);
    let mut answers = Answers::none();
    for dimension in 1..=4 {
        for _ in 0..rounds_in(dimension, 20_000) {
            let kind = random.below(2) as u32;
            let p = Params {
                kind,
                dimension,
                mode: EXACT,
                planes: 1,
                width: wide(dimension),
                lowest: MIN_LOWEST,
            };
            let mut archive = vec![0; p.width.div_ceil(8) as usize];
            let mut at = 0;
            if kind == FLOATS {
                put(&mut archive, &mut at, &[true]);
                let raw = random.once_in(3);
                put(&mut archive, &mut at, &[raw]);
                if !raw {
                    let any = random.below(256) as u32;
                    let e = random.pick(&[0, 1, 2, 3, 30, 31, 127, 128, 254, 255, any, any]);
                    put(&mut archive, &mut at, &bits::number(e, 8));
                }
            }
            let planes = 1 + random.below(32) as u32;
            put(&mut archive, &mut at, &bits::number(planes - 1, 5));
            let high = random.below(6) as u32;
            let low = random.below(32) as u32;
            let coefficients: Vec<u32> = (0..block_len(&p))
                .map(|_| if random.once_in(3) { random.word() >> high >> low << low } else { 0 })
                .collect();
            put(&mut archive, &mut at, &reference::planes::code(&coefficients, planes));
            answers.count(compare_read(&p, &archive, 0, block_len(&p)).0.answer);
        }
    }
    answers.must_include(&[0, 11]);
}

/// Exact float slots of the multiple form built from the integers of one block and a neighbouring e.
#[test]
fn exact_float_slots_at_the_border_of_forms() {
    let mut random = Random::new(10);
    let mut answers = Answers::none();
    for dimension in (1..=4).flat_map(|dimension| vec![dimension; rounds_in(dimension, 10_000)]) {
        let p = Params {
            kind: FLOATS,
            dimension,
            mode: EXACT,
            planes: 32,
            width: wide(dimension),
            lowest: MIN_LOWEST,
        };
        let e = random.below(256) as u32;
        let mut integers: Vec<u32> = (0..block_len(&p))
            .map(|_| {
                let word = random.word() as i32 >> 1;
                let shift = random.below(30);
                (word >> shift << random.below(shift + 1)) as u32
            })
            .collect();
        // The largest magnitude is near the range that belongs to e.
        integers[0] = (1u32 << (28 + random.below(3))).wrapping_add(random.word() >> 30 << random.below(28));
        let mut archive = vec![0; p.width.div_ceil(8) as usize];
        let mut at = 0;
        put(&mut archive, &mut at, &[true, false]);
        put(&mut archive, &mut at, &bits::number(e, 8));
        let coefficients = transform::to_coefficients(&integers, dimension, transform::differences);
        let planes = reference::code::needed_planes(&coefficients);
        put(&mut archive, &mut at, &bits::number(planes - 1, 5));
        put(&mut archive, &mut at, &reference::planes::code(&coefficients, planes));
        answers.count(compare_read(&p, &archive, 0, block_len(&p)).0.answer);
    }
    answers.must_include(&[0, 11]);
}

/// Lossy float slots with every e: overflow, ties, subnormals, the sign of what rounds to zero.
#[test]
fn lossy_float_slots_of_every_e() {
    let mut random = Random::new(11);
    for e in 0..256 {
        for dimension in 1..=4 {
            for _ in 0..rounds_in(dimension, 40) {
                let width = any_width(&mut random, dimension);
                let p = Params {
                    kind: FLOATS,
                    dimension,
                    mode: LOSSY,
                    planes: any_planes(&mut random),
                    width,
                    lowest: MIN_LOWEST,
                };
                let mut archive = vec![0; width.div_ceil(8) as usize];
                let mut at = 0;
                put(&mut archive, &mut at, &[true]);
                put(&mut archive, &mut at, &bits::number(e, 8));
                let shift = random.below(32);
                let integers: Vec<u32> =
                    (0..block_len(&p)).map(|_| (random.word() as i32 >> shift) as u32).collect();
                let coefficients = transform::to_coefficients(&integers, dimension, transform::lift);
                put(&mut archive, &mut at, &reference::planes::code(&coefficients, 32));
                compare_read(&p, &archive, 0, block_len(&p));
            }
        }
    }
}

/// The read depends on the slot's own bits only.
#[test]
fn a_read_does_not_see_the_neighbours() {
    let mut random = Random::new(17);
    for (kind, dimension, mode) in all_kinds() {
        for _ in 0..rounds_in(dimension, 300) {
            let width = any_width(&mut random, dimension);
            let p =
                Params { kind, dimension, mode, planes: any_planes(&mut random), width, lowest: MIN_LOWEST };
            let maker = random.below(MAKERS);
            let words = block(&mut random, maker, block_len(&p));
            let archive = archive_for(&mut random, &p, 3);
            let (_, stored) = compare_store(&p, &archive, 1, &words);
            let first = compare_read(&p, &stored, 1, words.len());
            let mut other = random.bytes(stored.len());
            for t in width as usize..2 * width as usize {
                bits::set(&mut other, t, bits::get(&stored, t));
            }
            assert_eq!(compare_read(&p, &other, 1, words.len()), first);
        }
    }
}
