//! What a width of 0 stands for: 33N + 14 bits in exact mode, 8N in lossy mode.

use crate::common::*;
use crate::compare::*;
use crate::make::*;
use reference::{Params, transform};
use testing::by_hand;

/// The library's calls with these parameters: store and what the archive is then, read, slot count and bit count.
fn outcomes(p: &Params, archive: &[u8], slot: usize, words: &[u32]) -> impl PartialEq + use<> {
    let mut after = archive.to_vec();
    let stored = windlassow::store(ours(p), &mut after, slot, words);
    let mut back = vec![7; words.len()];
    let given = windlassow::read(ours(p), &after, slot, &mut back);
    let counts = (windlassow::slot_count(ours(p), &after), windlassow::bit_count(ours(p), words));
    (stored, after, given, back, counts)
}

/// Every call has the same outcome with 0 and with the width that it stands for, in any archive.
#[test]
fn zero_and_the_width_that_it_stands_for() {
    let mut random = Random::new(70);
    for (kind, dimension) in all_kinds() {
        let n = 4u32.pow(dimension);
        for (mode, width) in [(LOSSY, 8 * n), (EXACT, 33 * n + 14)] {
            for _ in 0..rounds_in(dimension, 800) {
                let named = Params { mode, planes: any_planes(&mut random), ..exact(kind, dimension, width) };
                let zero = Params { width: 0, ..named };
                let slots = random.below(4);
                let archive = archive_for(&mut random, &named, slots);
                let maker = random.below(MAKERS);
                let words = block(&mut random, maker, n as usize);
                let slot = random.below(slots + 1);
                let same =
                    outcomes(&named, &archive, slot, &words) == outcomes(&zero, &archive, slot, &words);
                assert!(same, "{named:?} slot {slot} words {words:x?}");
            }
        }
    }
}

/// A copy takes 0 for 33N + 14 too.
#[test]
fn a_copy_of_full_slots() {
    let mut random = Random::new(71);
    for (kind, dimension) in all_kinds() {
        let named = exact(kind, dimension, 33 * 4u32.pow(dimension) + 14);
        let zero = Params { width: 0, ..named };
        for slots in 0..6 {
            let archive = archive_of_blocks(&mut random, &named, slots);
            let new = new_archive(&mut random, room(&named, slots));
            assert_eq!(compare_copy(&named, &archive, &new), compare_copy(&zero, &archive, &new));
        }
    }
}

/// Blocks with the longest codes: in plane 31 all coefficients have a one, each with a test before it. As integers and as patterns.
fn longest(random: &mut Random, dimension: u32) -> Vec<Vec<u32>> {
    let n = 4usize.pow(dimension);
    let mut blocks = vec![by_hand::longest(dimension), vec![u32::MAX; n], vec![0xAAAA_AAAB; n]];
    for _ in 0..rounds_in(dimension, 60) {
        let coefficients = every(random, n, |random, _| 1 << 31 | random.word());
        let words = transform::from_coefficients(&coefficients, dimension, transform::sums);
        // In the raw form a word with its top bit set is xored with 0x7FFFFFFF: the same undoes it.
        let flipped = words.iter().map(|&word| if word >> 31 == 1 { word ^ 0x7FFF_FFFF } else { word });
        blocks.push(flipped.collect());
        blocks.push(words);
        blocks.push(block(random, 12, n));
    }
    blocks
}

/// With a width of 0 no exact store answers 10, and what was stored comes back. 8N is too narrow for most of these.
#[test]
fn no_exact_block_is_too_long_for_a_width_of_0() {
    let mut random = Random::new(72);
    for (kind, dimension) in all_kinds() {
        let p = exact(kind, dimension, 0);
        let former = Params { width: 8 * 4u32.pow(dimension), ..p };
        let (mut most, mut refused) = (0, 0);
        for words in longest(&mut random, dimension) {
            let mut archive = random.bytes(room(&p, 2));
            let stored = windlassow::store(ours(&p), &mut archive, 1, &words).expect("the block fits");
            assert_eq!(read(&p, &archive, 1).1, words, "{p:?}");
            most = most.max(stored.count);
            refused +=
                usize::from(reply(windlassow::store(ours(&former), &mut archive, 0, &words)).answer == 10);
        }
        // 2N - 1 bits of plane 31 and N of each lower one, after 5 bits; of floats in the raw form two more.
        let longest = 33 * block_len(&p) + if kind == INTEGERS { 4 } else { 6 };
        assert!(most >= longest && refused > 20, "{p:?}: up to {most} bits, {refused} refused in 8N");
    }
}

/// Words of which equal ones fit 32 bits, as integers and as patterns.
const SHORT: [u32; 5] = [0, 0x3F80_0000, 0xC000_0000, 0x4100_0000, 0xC180_0000];

/// An archive of the former default is read by naming 8N, and its copy with 0.
#[test]
fn archives_of_8n_and_their_copies() {
    let mut random = Random::new(73);
    for (kind, dimension) in all_kinds() {
        let n = 4usize.pow(dimension);
        let former = exact(kind, dimension, 8 * n as u32);
        let full = Params { width: 0, ..former };
        let mut archive = vec![0xFF; 6 * n];
        let blocks: Vec<Vec<u32>> = (0..6).map(|_| vec![random.pick(&SHORT); n]).collect();
        for (slot, words) in blocks.iter().enumerate() {
            windlassow::store(ours(&former), &mut archive, slot, words).expect("the block fits");
        }
        let (given, new) = compare_copy(&former, &archive, &vec![0xFF; room(&full, 6)]);
        assert_eq!((given.answer, given.count), (0, 6));
        for (slot, words) in blocks.iter().enumerate() {
            assert_eq!(read(&former, &archive, slot).1, *words);
            assert_eq!(read(&full, &new, slot).1, *words);
        }
    }
}
