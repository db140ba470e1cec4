//! Request M-107: how far off lossy integers of dimension 1 come back with P = 32, in slots that cut nothing.

mod common;
use by_hand::integers::{self, LARGEST, MOST_BITS, blocks_of, off, within};
use common::*;
use reference::{read, store};

/// What four values come back as, from slot 1 of three in an archive of ones.
fn back(width: u32, values: [i32; 4]) -> [i32; 4] {
    let p = params(INTEGERS, 1, LOSSY, 32, width);
    let mut archive = vec![0xFF; (3 * width as usize).div_ceil(8)];
    let stored = store(&p, &mut archive, 1, &values.map(|value| value as u32));
    assert_eq!((stored.answer, stored.planes), (0, 32), "{values:?}");
    let mut words = [9; 4];
    assert_eq!(read(&p, &archive, 1, &mut words), done(4, 32));
    words.map(|word| word as i32)
}

fn is_near(values: [i32; 4], back: [i32; 4]) {
    assert!(within(off(values, back)), "{values:?} came back as {back:?}");
}

#[test]
fn no_value_is_further_off() {
    let mut random = Random::new(107);
    for _ in 0..20_000 {
        let shift = random.word_below(31);
        let values = [0; 4].map(|_: i32| (random.word() as i32 >> shift >> 1).max(-LARGEST));
        is_near(values, back(random.between(MOST_BITS, 200), values));
    }
}

#[test]
fn the_ends_of_the_range() {
    for values in blocks_of(&[LARGEST, LARGEST - 1, 0, 1 - LARGEST, -LARGEST]) {
        is_near(values, back(MOST_BITS, values));
    }
}

/// The sums of any words wrap around.
#[test]
fn any_words_modulo_2_to_the_32() {
    let mut random = Random::new(32);
    for _ in 0..20_000 {
        let values = [0; 4].map(|_: i32| random.word() as i32);
        assert_eq!(back(MOST_BITS, values), integers::back(values), "{values:?}");
    }
}
