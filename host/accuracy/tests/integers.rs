//! How far off lossy integers come back (document 02, M-107): by hand, of many blocks, and as docs/LOSSY.md says it.

use accuracy::integers::{BLOCKS, Found, Sort, back};
use random::{Random, rounds};
use std::fs;
use testing::by_hand::integers::{self as by_hand, BOUNDS, LARGEST, MOST_BITS, blocks_of, off, within};
use testing::{grouped, repository};
use windlassow::{Block, Dimension, Params, read_block, store_block};

fn page() -> String {
    fs::read_to_string(repository().join("docs/LOSSY.md")).expect("the page is there")
}

/// What a block comes back as from a slot of `width` bits in which all planes are.
fn comes_back(width: u32, values: [i32; 4]) -> [i32; 4] {
    let (done, block) = back(width, values).expect("the width is good");
    assert_eq!([done.planes, block.planes], [32, 32], "{values:?} in {width} bits");
    assert!(done.count <= MOST_BITS as usize, "{values:?} take {} bits", done.count);
    block.values
}

#[test]
fn no_value_is_further_off_and_each_bound_is_reached() {
    for sort in Sort::ALL {
        let found = Found::of(sort, rounds(20_000)).expect("a lossy store of integers is done");
        for (place, bound) in BOUNDS.into_iter().enumerate() {
            for off in bound {
                assert!(found.has(place, off), "{sort:?}: value {place} is never off by {off}");
            }
        }
    }
}

/// Every block of integers from -4 to 3, whose lowest bits are all there are.
#[test]
fn every_block_of_small_integers() {
    let mut found = Vec::new();
    for values in blocks_of(&[-4, -3, -2, -1, 0, 1, 2, 3]) {
        let back = comes_back(MOST_BITS, values);
        assert_eq!(back, by_hand::back(values));
        found.push(off(values, back));
    }
    found.sort_unstable();
    found.dedup();
    assert_eq!(found.len(), 16, "one for each choice of four bits");
    assert!(found.into_iter().all(within));
}

/// Whatever the slot's width and the sort of block.
#[test]
fn slots_of_every_width_from_131_bits() {
    let mut random = Random::new(131);
    for width in (MOST_BITS..=300).chain([1024, 8461, 8462]) {
        for sort in Sort::ALL {
            for _ in 0..rounds(20) {
                let values = sort.draw(&mut random);
                let back = comes_back(width, values);
                assert!(within(off(values, back)), "{values:?} in {width} bits: {back:?}");
                assert_eq!(back, by_hand::back(values));
            }
        }
    }
}

/// The largest and the smallest of the range and of the values beside them, in all places.
#[test]
fn the_ends_of_the_range() {
    for values in blocks_of(&[LARGEST, LARGEST - 1, 1, 0, -1, 1 - LARGEST, -LARGEST]) {
        let back = comes_back(MOST_BITS, values);
        assert!(within(off(values, back)), "{values:?}: {back:?}");
    }
}

/// Out of the range too, modulo 2^32: from one end of the words a value can come back at the other.
#[test]
fn any_words_modulo_2_to_the_32() {
    let mut random = Random::new(32);
    let mut passed = 0;
    for _ in 0..rounds(20_000) {
        let near = random.pick(&[0, i32::MIN, i32::MAX]);
        let size = random.pick(&[2, 8, 31, 32]);
        let values = [0; 4].map(|_: i32| near.wrapping_add(random.word() as i32 >> (32 - size)));
        let back = comes_back(MOST_BITS, values);
        assert_eq!(back, by_hand::back(values), "{values:?}");
        passed += usize::from(!within(off(values, back)));
    }
    assert!(passed > 0, "no value passed an end of the words");
}

/// Where a narrower slot has all planes, a value is no further off. This finds slots that have and slots that have not.
#[test]
fn narrower_slots_that_have_all_planes() {
    let mut random = Random::new(128);
    let mut slots = [0; 2];
    for width in 16..MOST_BITS {
        for sort in Sort::ALL {
            let values = sort.draw(&mut random);
            let (done, block) = back(width, values).expect("the width is good");
            let whole = done.planes == 32;
            slots[usize::from(whole)] += 1;
            assert!(!whole || within(off(values, block.values)), "{values:?} in {width} bits: {block:?}");
        }
    }
    assert!(slots.into_iter().all(|count| count > 100), "{slots:?}");
}

/// No block takes all the bits of the bound: 129 in the range, 130 out of it. So says docs/DECISIONS.md, choice 86.
#[test]
fn the_longest_codes() {
    let mut random = Random::new(130);
    let bits = |values| back(MOST_BITS, values).expect("the width is good").0.count;
    let mut most = [0; 2];
    for _ in 0..rounds(20_000) {
        let sort = random.pick(&[Sort::Any, Sort::Ends, Sort::Powers]);
        most[0] = bits(sort.draw(&mut random)).max(most[0]);
        most[1] = bits([0; 4].map(|_: i32| random.word() as i32)).max(most[1]);
    }
    assert_eq!(most, [129, 130]);
}

/// Its coefficients take 129 bits. The last of them is a one, and weighs 1 in the fourth coefficient.
#[test]
fn a_slot_of_128_bits_is_too_narrow() {
    let values = [1, -LARGEST, -LARGEST, LARGEST];
    assert_eq!(comes_back(129, values), [1, -LARGEST, -LARGEST, LARGEST - 2]);
    let (done, block) = back(128, values).expect("the width is good");
    assert_eq!([done.planes, block.planes], [31, 31]);
    assert_eq!(off(values, block.values), [1, -1, 1, -3]);
}

/// What has come back once is stored and read again, in and out of the range.
#[test]
fn a_second_time_loses_no_more() {
    let mut random = Random::new(2);
    for sort in Sort::ALL {
        for _ in 0..rounds(2_000) {
            let once = comes_back(MOST_BITS, sort.draw(&mut random));
            assert_eq!(comes_back(MOST_BITS, once), once);
            let once = comes_back(MOST_BITS, [0; 4].map(|_: i32| random.word() as i32));
            assert_eq!(comes_back(MOST_BITS, once), once);
        }
    }
}

/// No halving loses a bit of them.
#[test]
fn multiples_of_four() {
    let mut random = Random::new(4);
    for sort in Sort::ALL {
        for _ in 0..rounds(2_000) {
            let fours = sort.draw(&mut random).map(|value| value & !3);
            assert_eq!(comes_back(MOST_BITS, fours), fours);
        }
    }
}

/// The rows under a header of the page, cell by cell.
fn rows<'a>(page: &'a str, header: &str) -> Vec<Vec<&'a str>> {
    let (_, below) = page.split_once(header).unwrap_or_else(|| panic!("the page has no header {header}"));
    let rows = below.lines().skip(2).take_while(|line| line.starts_with('|'));
    rows.map(|row| row.trim_matches('|').split('|').map(str::trim).collect()).collect()
}

fn numbers<T: std::str::FromStr>(cell: &str) -> [T; 4] {
    let number = |text: &str| text.replace(',', "").parse().unwrap_or_else(|_| panic!("{text} is no number"));
    let numbers: Vec<T> = cell.split(' ').map(number).collect();
    numbers.try_into().unwrap_or_else(|_| panic!("{cell} is not four numbers"))
}

/// The page's table of bounds, and the range and the width for which it says them.
#[test]
fn the_bounds_of_the_page() {
    let page = page();
    let found = rows(&page, "| value | at most too low by | at most too high by |");
    let names = ["first", "second", "third", "fourth"];
    let bounds = names.into_iter().zip(BOUNDS).map(|(name, bound)| {
        vec![name.to_string(), bound.start().unsigned_abs().to_string(), bound.end().to_string()]
    });
    assert!(found.into_iter().eq(bounds), "docs/LOSSY.md has other bounds");
    let largest = grouped(LARGEST as usize);
    for text in [format!("slots of {MOST_BITS} bits or more"), format!("from -{largest} to {largest}")] {
        assert!(page.contains(&text), "docs/LOSSY.md has not: {text}");
    }
}

/// Each row of the page's blocks: what is stored, what comes back, and by how much it is off. Each bound is in one of them.
#[test]
fn the_blocks_of_the_page() {
    let page = page();
    let blocks = rows(&page, "| stored | comes back | off by |");
    let mut reached: [Vec<i64>; 4] = Default::default();
    for row in &blocks {
        let [stored, back, differ] = row[..] else { panic!("a row of three cells: {row:?}") };
        let (stored, differ) = (numbers(stored), numbers::<i64>(differ));
        assert_eq!(comes_back(MOST_BITS, stored), numbers(back));
        assert_eq!(off(stored, numbers(back)), differ);
        reached.iter_mut().zip(differ).for_each(|(reached, off)| reached.push(off));
    }
    for (reached, bound) in reached.iter().zip(BOUNDS) {
        assert!(
            [bound.start(), bound.end()].iter().all(|end| reached.contains(end)),
            "{reached:?}, {bound:?}"
        );
    }
}

/// A block of readings in tenths of a degree: the counts of the page's tables.
#[test]
fn the_counts_of_the_page() {
    let page = page();
    let found = Found::of(Sort::Readings, BLOCKS).expect("a lossy store of integers is done");
    let rows = (0..4).map(|place| found.row(place)).chain(found.size_rows());
    for row in rows {
        assert!(page.contains(&row), "docs/LOSSY.md has not the row {row}");
    }
}

/// The examples under "What it does not say".
#[test]
fn what_the_page_does_not_promise() {
    let page = page();
    let has = |text: &str| assert!(page.contains(text), "docs/LOSSY.md has not: {text}");
    has("in 128 bits 1, -1073741823, -1073741823, 1073741823 come back off by 1, -1, 1 and -3");
    has(
        "With P = 31 the block 366 365 365 364 comes back as 367 363 365 361, with P = 28 as four times 368.",
    );
    assert_eq!(with_planes(31, [366, 365, 365, 364]), [367, 363, 365, 361]);
    assert_eq!(with_planes(28, [366, 365, 365, 364]), [368; 4]);
    has("-2147483648, 0, 0, -1 comes back as 2147483646, 0, 0, -2.");
    assert_eq!(comes_back(MOST_BITS, [i32::MIN, 0, 0, -1]), [i32::MAX - 1, 0, 0, -2]);
    has("as it does of these readings in 64 bits");
    for readings in [[366, 366, 366, 365], [366, 365, 365, 364], [365, 366, 365, 364], [366; 4]] {
        comes_back(64, readings);
    }
}

/// What a block comes back as with fewer planes, in a slot that cuts none of them.
fn with_planes(planes: u32, values: [i32; 4]) -> [i32; 4] {
    let params = Params::lossy_integers(Dimension::One, planes, MOST_BITS);
    let mut archive = [0; 17];
    store_block(params, &mut archive, 0, &values).expect("a lossy store of integers is done");
    let block: Block<i32, 4> = read_block(params, &archive, 0).expect("a lossy slot is read");
    assert_eq!(block.planes, planes);
    block.values
}
