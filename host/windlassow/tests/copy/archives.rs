//! Archives of every sort, copied to new ones of every length.

use crate::common::*;
use crate::compare::*;
use reference::{Params, bits};
use windlassow::MAX_ARCHIVE_LEN;

/// A length of the new archive: just enough for so many slots, a byte short of it, or longer.
fn any_room(random: &mut Random, p: &Params, slots: usize) -> usize {
    let least = room(p, slots);
    match random.below(6) {
        0 | 1 => least,
        2 => least.saturating_sub(1),
        3 => least + 1 + random.below(3),
        4 => least + random.below(3 * full_width(p) / 8),
        _ => random.below(least + 1),
    }
}

/// Archives of good blocks, of none up to eight slots.
#[test]
fn archives_of_blocks() {
    let mut random = Random::new(60);
    let mut answers = Answers::none();
    for (kind, dimension) in all_kinds() {
        for _ in 0..rounds_in(dimension, 1_600) {
            let p = exact(kind, dimension, any_width_of(&mut random, dimension));
            let slots = random.below(9);
            let archive = archive_of_blocks(&mut random, &p, slots);
            let len = any_room(&mut random, &p, slots);
            let new = new_archive(&mut random, len);
            answers.count(compare_copy(&p, &archive, &new).0.answer);
        }
    }
    answers.must_include(&[0, 14]);
}

/// Good blocks with up to three bits of the slots changed. Many of them read as other blocks.
#[test]
fn damaged_archives() {
    let mut random = Random::new(61);
    let mut answers = Answers::none();
    for (kind, dimension) in all_kinds() {
        let mut slots_seen = [0; 6];
        for _ in 0..rounds_in(dimension, 1_600) {
            let p = exact(kind, dimension, any_width_of(&mut random, dimension));
            let slots = 1 + random.below(6);
            let mut archive = archive_of_blocks(&mut random, &p, slots);
            for _ in 0..1 + random.below(3) {
                let t = random.below(slots * width_of(&p));
                let bit = bits::get(&archive, t);
                bits::set(&mut archive, t, !bit);
            }
            let len = any_room(&mut random, &p, slots).max(room(&p, slots - 1));
            let new = new_archive(&mut random, len);
            let given = compare_copy(&p, &archive, &new).0;
            answers.count(given.answer);
            if given.answer == 11 {
                slots_seen[given.count as usize] += 1;
            }
        }
        assert!(
            !slots_seen.contains(&0),
            "kind {kind}, dimension {dimension}: 11 with the slots {slots_seen:?}"
        );
    }
    answers.must_include(&[0, 11, 14]);
}

/// Any bytes, and zeros, which every slot reads as a block of zeros.
#[test]
fn archives_that_no_store_has_written() {
    let mut random = Random::new(62);
    let mut answers = Answers::none();
    for (kind, dimension) in all_kinds() {
        for _ in 0..rounds_in(dimension, 800) {
            let p = exact(kind, dimension, any_width_of(&mut random, dimension));
            let len = random.below(3 * width_of(&p) / 8 + 2);
            let archive = if random.once_in(3) { vec![0; len] } else { random.bytes(len) };
            let slots = 8 * len / width_of(&p);
            let len = any_room(&mut random, &p, slots);
            let new = new_archive(&mut random, len);
            answers.count(compare_copy(&p, &archive, &new).0.answer);
        }
    }
    answers.must_include(&[0, 11, 14]);
}

/// Bytes that hold no slot go to any new archive, also to an empty one, which keeps its bits.
#[test]
fn archives_of_no_slots() {
    let mut random = Random::new(63);
    for (kind, dimension) in all_kinds() {
        for width in [0, 16, 17, 8 * 4u32.pow(dimension), 8_461, 8_462] {
            let p = exact(kind, dimension, width);
            for len in [0, 1, (width_of(&p) - 1) / 8] {
                let archive = random.bytes(len);
                for new_len in [0, 1, room(&p, 1) - 1, room(&p, 1), room(&p, 3)] {
                    let new = new_archive(&mut random, new_len);
                    let (given, after) = compare_copy(&p, &archive, &new);
                    assert_eq!((given.answer, given.count), (0, 0), "{p:?}");
                    assert!(after == new, "{p:?}");
                }
            }
        }
    }
}

/// Each slot of nine is the first that cannot be read, alone and with later ones. All slots before it are good.
#[test]
fn each_slot_unreadable_first() {
    let mut random = Random::new(64);
    for (kind, dimension) in all_kinds() {
        for width in [0, 33 * 4u32.pow(dimension) + 15, 200] {
            let p = exact(kind, dimension, width.min(8_462));
            let good = archive_of_blocks(&mut random, &p, 9);
            for first in 0..9 {
                for more in [false, true] {
                    let mut archive = good.clone();
                    let unreadable = if more { first..9 } else { first..first + 1 };
                    let ones = unreadable.start * width_of(&p)..unreadable.end * width_of(&p);
                    ones.for_each(|t| bits::set(&mut archive, t, true));
                    let new = new_archive(&mut random, room(&p, 9) + 2);
                    let given = compare_copy(&p, &archive, &new).0;
                    assert_eq!((given.answer, given.count as usize), (11, first), "{p:?}");
                }
            }
        }
    }
}

/// The longest archives: as many slots as a new one of 65,536 bytes takes, and one more.
#[test]
fn the_longest_archives() {
    let mut random = Random::new(65);
    for (kind, dimension) in all_kinds() {
        let most = 8 * MAX_ARCHIVE_LEN / full_width(&exact(kind, dimension, 0));
        for width in [0, 40, 8_462] {
            let p = exact(kind, dimension, width);
            let slots = most.min(8 * MAX_ARCHIVE_LEN / width_of(&p));
            let mut archive = archive_of_blocks(&mut random, &p, slots);
            let new = new_archive(&mut random, MAX_ARCHIVE_LEN);
            let given = compare_copy(&p, &archive, &new).0;
            assert_eq!((given.answer, given.count as usize), (0, slots), "{p:?}");
            let last = slots * width_of(&p) - 1;
            let bit = bits::get(&archive, last);
            bits::set(&mut archive, last, !bit);
            compare_copy(&p, &archive, &new);
            archive.resize(archive.len() + width_of(&p) / 8 + 1, 0);
            archive.truncate(MAX_ARCHIVE_LEN);
            compare_copy(&p, &archive, &new);
        }
    }
}

/// A copy of a copy is the same archive, and a good q and P do not matter.
#[test]
fn copies_of_copies() {
    let mut random = Random::new(66);
    for (kind, dimension) in all_kinds() {
        for _ in 0..rounds_in(dimension, 100) {
            let p = exact(kind, dimension, any_width_of(&mut random, dimension));
            let slots = 1 + random.below(5);
            let archive = archive_of_blocks(&mut random, &p, slots);
            let zeros = vec![0; room(&p, slots)];
            let (_, once) = compare_copy(&p, &archive, &zeros);
            let full = Params { width: 0, ..p };
            assert!(compare_copy(&full, &once, &zeros).1 == once, "{p:?}");
            let planes = 1 + random.word_below(32);
            let lowest = random.below(601) as i32 + MIN_LOWEST;
            assert!(compare_copy(&Params { planes, lowest, ..p }, &archive, &zeros).1 == once, "{p:?}");
        }
    }
}
