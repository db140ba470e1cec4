//! Cases worked out by hand for every dimension: the order, the axes, the bound, widths.

mod common;
use common::*;
use reference::{Params, bit_count, read, slot_count, transform};

/// A block of one coefficient has its place in the order, in all dimensions.
#[test]
fn one_coefficient() {
    for dimension in 1..=4 {
        let p = params(INTEGERS, dimension, EXACT, 32, 300);
        for (number, place) in by_hand::order(dimension) {
            let code = by_hand::single_code(dimension, number);
            let (reply, slot) = stored(&p, &by_hand::single(dimension, place));
            assert_eq!(reply, done(bits(&code).len() as u32, 32), "dimension {dimension}, place {place}");
            starts_with(&slot, &code);
        }
    }
}

#[test]
fn one_word() {
    for dimension in [3, 4] {
        let mut block = vec![0; 4usize.pow(dimension)];
        block[0] = 1;
        let code = by_hand::first_word_code(dimension);
        let (reply, slot) = stored(&params(INTEGERS, dimension, EXACT, 32, 1024), &block);
        assert_eq!(reply, done(bits(&code).len() as u32, 32));
        starts_with(&slot, &code);
    }
}

/// P5 and P6 do not depend on N.
#[test]
fn equal_floats() {
    for dimension in 1..=4 {
        let p = params(FLOATS, dimension, EXACT, 32, 64);
        let code = |word: u32| stored(&p, &vec![word; 4usize.pow(dimension)]);
        for (word, text, planes) in [
            (0, "0".to_string(), 0),
            (0x3F80_0000, "10 00000001 01000 0 110 10".to_string(), 3),
            (0x8000_0000, format!("11 11111 {} 110 10", "0".repeat(30)), 32),
        ] {
            let (reply, slot) = code(word);
            assert_eq!(reply, done(bits(&text).len() as u32, planes));
            starts_with(&slot, &text);
        }
    }
}

/// P3 and P4 for every N: 33N + 4 ones, and a bit less is too narrow.
#[test]
fn the_longest_integer_block() {
    for (dimension, needed) in [(1, 136), (2, 532), (3, 2_116), (4, 8_452)] {
        let block = by_hand::longest(dimension);
        let p = params(INTEGERS, dimension, EXACT, 32, needed);
        let (reply, slot) = stored(&p, &block);
        assert_eq!(reply, done(needed, 32));
        assert!(!slot.contains(&false));
        let narrow = Params { width: needed - 1, ..p };
        let (reply, slot) = stored(&narrow, &block);
        assert_eq!(reply, too_long(needed));
        assert!(!slot.contains(&true));
        assert_eq!(bit_count(&narrow, &block), done(needed, 32));
    }
}

/// In lossy mode.
#[test]
fn width_0_is_8n() {
    for (dimension, n, width) in [(1, 4, 32), (2, 16, 128), (3, 64, 512), (4, 256, 2_048)] {
        let words = vec![0x0100_0000; n];
        let zero = params(INTEGERS, dimension, LOSSY, 32, 0);
        let named = Params { width, ..zero };
        assert_eq!(stored(&zero, &words), stored(&named, &words));
        assert_eq!(bit_count(&zero, &words), bit_count(&named, &words));
        // A slot is N bytes: a byte short of three are two.
        assert_eq!(slot_count(&zero, &vec![0; 3 * n - 1]), done(2, 0));
    }
}

/// In exact mode of both kinds. Four slots are 16N and N / 2 + 7 bytes; a byte less has three.
#[test]
fn width_0_is_33n_and_14_in_exact_mode() {
    for (dimension, width, four) in [(1, 146, 73), (2, 542, 271), (3, 2_126, 1_063), (4, 8_462, 4_231)] {
        for kind in [INTEGERS, FLOATS] {
            let zero = params(kind, dimension, EXACT, 32, 0);
            let named = Params { width, ..zero };
            for words in [by_hand::longest(dimension), vec![0x3F80_0000; 4usize.pow(dimension)]] {
                assert_eq!(stored(&zero, &words), stored(&named, &words));
                assert_eq!(stored(&zero, &words).0.answer, 0);
                assert_eq!(bit_count(&zero, &words), bit_count(&named, &words));
            }
            assert_eq!(slot_count(&zero, &vec![0; four]), done(4, 0));
            assert_eq!(slot_count(&zero, &vec![0; four - 1]), done(3, 0));
        }
    }
}

/// Lossy, since the exact differences along two axes can change places.
#[test]
fn axis_by_axis_from_i_on() {
    for dimension in 2..=4 {
        for axis in 0..dimension as usize - 1 {
            let p = params(INTEGERS, dimension, LOSSY, 32, 64);
            let code = by_hand::axes_code(axis);
            let (reply, slot) = stored(&p, &by_hand::axes_block(dimension, axis));
            assert_eq!(reply, done(bits(&code).len() as u32, 32), "dimension {dimension}, axis {axis}");
            starts_with(&slot, &code);
        }
    }
}

#[test]
fn read_in_reverse() {
    for dimension in 2..=4 {
        for axis in 0..dimension as usize - 1 {
            let p = params(INTEGERS, dimension, LOSSY, 32, 64);
            let (code, block) = by_hand::axes_slot(dimension, axis);
            let mut words = vec![9; block.len()];
            let reply = read(&p, &bytes_of(&bits(&code), 8), 0, &mut words);
            assert_eq!(reply, done(block.len() as u32, 32));
            let words: Vec<i32> = words.into_iter().map(|word| word as i32).collect();
            assert_eq!(words, block, "dimension {dimension}, axis {axis}");
        }
    }
}

/// A block that lifts otherwise if two axes change places or one is left out, and reads otherwise too.
#[test]
fn every_axis_counts() {
    for dimension in 2..=4u32 {
        let block: Vec<u32> =
            (0..4u32.pow(dimension)).map(|k| k.wrapping_mul(0x9E37_79B9) ^ k << 7).collect();
        let by = |axes: &[u32], step: transform::Step<u32>| {
            let mut words = block.clone();
            for &axis in axes {
                let stride = 4usize.pow(axis);
                for first in (0..words.len()).filter(|place| place / stride % 4 == 0) {
                    let places = [0, 1, 2, 3].map(|k| first + k * stride);
                    let values = step(places.map(|place| words[place]));
                    places.into_iter().zip(values).for_each(|(place, value)| words[place] = value);
                }
            }
            words
        };
        let upward: Vec<u32> = (0..dimension).collect();
        let downward: Vec<u32> = (0..dimension).rev().collect();
        let (mut lifted, mut unlifted) = (block.clone(), block.clone());
        transform::forward(&mut lifted, dimension, transform::lift);
        transform::backward(&mut unlifted, dimension, transform::unlift);
        for (result, axes, step) in [
            (lifted, upward, transform::lift as transform::Step<u32>),
            (unlifted, downward, transform::unlift),
        ] {
            assert_eq!(result, by(&axes, step));
            for k in 0..axes.len() {
                let mut others = axes.clone();
                others.remove(k);
                assert_ne!(result, by(&others, step), "without axis {}", axes[k]);
            }
            for k in 1..axes.len() {
                let mut swapped = axes.clone();
                swapped.swap(k - 1, k);
                assert_ne!(result, by(&swapped, step), "axes {swapped:?}");
            }
        }
    }
}
