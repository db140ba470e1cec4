//! A search from bad blocks to worse ones: words are changed, and what makes the error larger is kept.

use crate::draw::Class;
use crate::model::{Errors, errors};
use random::Random;
use reference::floats::{exponent_field, is_zero};

/// The blocks of which the worst is taken to start with.
const STARTS: usize = 16;

/// The changes that are tried.
const STEPS: usize = 400;

/// The largest exponent field with which nothing that is read overflows.
const LARGEST_FIELD: u32 = 252;

/// The classes to start from.
const FROM: [Class; 5] = [Class::Digits, Class::Digits, Class::Signs, Class::Mixed, Class::One];

/// A block that was changed until it had a large error at k planes.
pub fn climbed(random: &mut Random, d: u32, k: i32) -> Vec<u32> {
    // What the search looks at first.
    let first = random.below(3);
    let goal = |words: &[u32]| {
        let Errors { before, after, coarse } = errors(d, words, k);
        [[after, before], [before, after], [coarse, after]][first]
    };
    let draw = |random: &mut Random| random.pick(&FROM).draw(random, d, k);
    let mut words = draw(random);
    let mut best = goal(&words);
    for step in 0..STARTS + STEPS {
        let next = if step < STARTS { draw(random) } else { changed(random, &words) };
        if !is_allowed(&next) {
            continue;
        }
        let reached = goal(&next);
        if reached >= best {
            (words, best) = (next, reached);
        }
    }
    words
}

fn is_allowed(words: &[u32]) -> bool {
    words.iter().all(|&word| exponent_field(word) <= LARGEST_FIELD)
        && !words.iter().all(|&word| is_zero(word))
}

/// The block with one to three words changed.
fn changed(random: &mut Random, words: &[u32]) -> Vec<u32> {
    let mut words = words.to_vec();
    for _ in 0..random.between(1, 3) {
        let place = random.below(words.len());
        let other = words[random.below(words.len())];
        words[place] = changed_word(random, words[place], other);
    }
    words
}

fn changed_word(random: &mut Random, word: u32, other: u32) -> u32 {
    match random.below(7) {
        0 => word ^ 1 << random.below(23),
        1 => word ^ 1 << 31,
        2 => word.wrapping_add(1 << random.below(16)),
        3 => word.wrapping_sub(1 << random.below(16)),
        4 => word & 0x807F_FFFF | random.word_below(exponent_field(other) + 1) << 23,
        5 => word & 0xFF80_0000 | random.word() & 0x7F_FFFF,
        _ => other ^ random.word() & 0x8000_0000,
    }
}
