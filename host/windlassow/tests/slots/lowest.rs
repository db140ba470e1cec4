//! The lowest exponent q: every one of its range, those around a block's exponent, other kinds and modes, and slots that no store
//! has written.

use crate::common::*;
use crate::compare::*;
use crate::cuts::{planes_coded, slot_bits};
use crate::damage::random_slot;
use crate::make::*;
use reference::{Params, bits};

/// Ways of making blocks that are finite floats.
const FINITE: [usize; 5] = [6, 7, 9, 10, 12];

/// m of floats that are not all zero: one more than the exponent of the largest, for subnormal numbers -126.
fn exponent(words: &[u32]) -> i32 {
    let field = words.iter().map(|word| word >> 23 & 0xFF).max().expect("a block has words");
    field as i32 - 126
}

/// The q with which m - q + 2 x (dimension + 1) is this number, if it is a good one.
fn lowest_for(dimension: u32, m: i32, planes: i32) -> Option<i32> {
    let lowest = m + 2 * (dimension as i32 + 1) - planes;
    (MIN_LOWEST..=MAX_LOWEST).contains(&lowest).then_some(lowest)
}

/// Finite floats that are not all zero.
fn finite(random: &mut Random, dimension: u32) -> Vec<u32> {
    loop {
        let maker = random.pick(&FINITE);
        let words = block(random, maker, 4usize.pow(dimension));
        let is_finite = words.iter().all(|word| word >> 23 & 0xFF != 255);
        if is_finite && words.iter().any(|word| word << 1 != 0) {
            return words;
        }
    }
}

/// The library's store and its read of what was stored, or of the slot as it was.
fn outcome(p: &Params, archive: &[u8], words: &[u32]) -> (Vec<u8>, [reference::Reply; 4], Vec<u32>) {
    let (mut archive, mut back) = (archive.to_vec(), vec![NO_WORD; words.len()]);
    let stored = reply(windlassow::store(ours(p), &mut archive, 0, words));
    let given = reply(windlassow::read(ours(p), &archive, 0, &mut back));
    let [slots, counted] = compare_counts(p, &archive, words);
    (archive, [stored, given, slots, counted], back)
}

/// Every q with every kind, dimension and mode. All but lossy floats have the outcome of q = -300.
#[test]
fn every_lowest_of_every_kind_dimension_and_mode() {
    let mut random = Random::new(50);
    let mut answers = Answers::none();
    for lowest in MIN_LOWEST..=MAX_LOWEST {
        for (kind, dimension, mode) in all_kinds() {
            for _ in 0..rounds_in(dimension, 2) {
                let (planes, width) = (any_planes(&mut random), any_width(&mut random, dimension));
                let p = Params { kind, dimension, mode, planes, width, lowest };
                let archive = archive_for(&mut random, &p, 1);
                let maker = random.below(MAKERS);
                let words = block(&mut random, maker, block_len(&p));
                answers.count(compare_all(&p, &archive, 0, &words).answer);
                if (kind, mode) != (FLOATS, LOSSY) {
                    let kept = Params { lowest: MIN_LOWEST, ..p };
                    assert!(outcome(&p, &archive, &words) == outcome(&kept, &archive, &words), "{p:?}");
                }
            }
        }
    }
    answers.must_include(&[0, 9, 10]);
}

/// How often q, P or neither left so many planes.
struct Kept {
    by_lowest: [usize; 33],
    by_planes: [usize; 33],
}

impl Kept {
    fn count(&mut self, p: &Params, to_lowest: i32) {
        if to_lowest < p.planes as i32 {
            self.by_lowest[to_lowest.max(0) as usize] += 1;
        } else {
            self.by_planes[p.planes as usize] += 1;
        }
    }
}

/// Blocks of floats with q around their exponent, in wide and in narrow slots: more planes down to q than P, fewer, and none.
#[test]
fn around_the_exponent_of_a_block() {
    for dimension in 1..=4 {
        let mut random = Random::new(u64::from(50 + dimension));
        let mut kept = Kept { by_lowest: [0; 33], by_planes: [0; 33] };
        for _ in 0..rounds_in(dimension, 120) {
            let words = finite(&mut random, dimension);
            for to_lowest in -3..=35 {
                let Some(lowest) = lowest_for(dimension, exponent(&words), to_lowest) else {
                    continue;
                };
                let full = 33 * 4u32.pow(dimension) + 14;
                let width = if random.once_in(2) { full } else { any_width(&mut random, dimension) };
                let planes = any_planes(&mut random);
                let p = Params { kind: FLOATS, dimension, mode: LOSSY, planes, width, lowest };
                let archive = archive_for(&mut random, &p, 3);
                let stored = compare_all(&p, &archive, 1, &words);
                let coded = planes.min(to_lowest.max(0) as u32);
                assert!(stored.planes == coded || width < full && stored.planes < coded, "{p:?} {words:x?}");
                assert_eq!(stored.count == 1, coded == 0, "{p:?} {words:x?}");
                kept.count(&p, to_lowest);
            }
        }
        assert!(kept.by_lowest[..32].iter().all(|&times| times > 0), "{:?}", kept.by_lowest);
        assert!(kept.by_planes[1..].iter().all(|&times| times > 0), "{:?}", kept.by_planes);
    }
}

/// On the library alone: where q keeps fewer planes than P, the outcome is that of so many planes and q = -300. None are zeros.
#[test]
fn a_lowest_exponent_stands_for_a_number_of_planes() {
    let mut random = Random::new(55);
    for dimension in 1..=4 {
        for _ in 0..rounds_in(dimension, 60) {
            let words = finite(&mut random, dimension);
            let width = any_width(&mut random, dimension);
            let all = Params { kind: FLOATS, dimension, mode: LOSSY, planes: 32, width, lowest: MIN_LOWEST };
            let archive = archive_for(&mut random, &all, 1);
            for planes in 0..=32 {
                let Some(lowest) = lowest_for(dimension, exponent(&words), planes as i32) else {
                    continue;
                };
                let given = outcome(&Params { lowest, ..all }, &archive, &words);
                let expected = match planes {
                    0 => outcome(&all, &archive, &vec![0; words.len()]),
                    _ => outcome(&Params { planes, ..all }, &archive, &words),
                };
                assert!(given == expected, "{planes} planes of {all:?} {words:x?}");
            }
        }
    }
}

/// Numbers of planes down to q for which slots are read.
const TO_LOWEST: [i32; 13] = [-20, -2, -1, 0, 1, 2, 3, 9, 20, 31, 32, 33, 60];

/// Slots of every e, filled with any bits, read with q around m of that e. A first bit 1 with no planes gives zeros.
#[test]
fn slots_of_every_e_around_its_exponent() {
    let mut random = Random::new(56);
    let (mut none, mut some) = (0, 0);
    for e in 0..256u32 {
        for (dimension, to_lowest) in
            (1..=4).flat_map(|dimension| TO_LOWEST.map(|planes| (dimension, planes)))
        {
            let Some(lowest) = lowest_for(dimension, e as i32 - 127, to_lowest) else {
                continue;
            };
            for _ in 0..rounds_in(dimension, 3) {
                let (planes, width) = (any_planes(&mut random), any_width(&mut random, dimension));
                let p = Params { kind: FLOATS, dimension, mode: LOSSY, planes, width, lowest };
                let mut archive = random_slot(&mut random, &p);
                bits::set(&mut archive, 0, true);
                bits::number(e, 8)
                    .iter()
                    .enumerate()
                    .for_each(|(k, &bit)| bits::set(&mut archive, 1 + k, bit));
                let (given, words) = compare_read(&p, &archive, 0, block_len(&p));
                if to_lowest <= 0 {
                    assert!(given.planes == 0 && words.iter().all(|&word| word == 0), "{p:?}");
                    none += 1;
                } else {
                    some += usize::from(given.planes > 0);
                }
            }
        }
    }
    assert!(none > 0 && some > 0);
}

/// Slots stored with one q and read with another, whole and with damaged bits, those of e too.
#[test]
fn damaged_slots_and_another_lowest() {
    let mut random = Random::new(57);
    let mut none = 0;
    for dimension in 1..=4 {
        for _ in 0..rounds_in(dimension, 1_500) {
            let words = finite(&mut random, dimension);
            let mut near = || {
                let planes = random.below(40) as i32 - 3;
                lowest_for(dimension, exponent(&words), planes).unwrap_or(MIN_LOWEST)
            };
            let (lowest, other) = (near(), near());
            let (planes, width) = (any_planes(&mut random), any_width(&mut random, dimension));
            let p = Params { kind: FLOATS, dimension, mode: LOSSY, planes, width, lowest };
            let archive = archive_for(&mut random, &p, 2);
            let (_, mut stored) = compare_store(&p, &archive, 1, &words);
            for round in 0..4 {
                // First the slot as it was stored, then with a bit of its head damaged, then with any bit.
                let within = if round == 1 { 9 } else { width as usize };
                if round > 0 {
                    let t = width as usize + random.below(within);
                    let bit = bits::get(&stored, t);
                    bits::set(&mut stored, t, !bit);
                }
                for lowest in [lowest, other] {
                    let p = Params { lowest, ..p };
                    compare_read(&p, &stored, 1, words.len());
                    let slot = slot_bits(&p, &stored, 1);
                    none += usize::from(slot[0] && planes_coded(&p, &slot) == 0);
                }
            }
        }
    }
    assert!(none > 0, "no slot had a first bit 1 and no planes");
}

/// Zeros of both signs are a single 0 with every q, and an infinity is refused with every q.
#[test]
fn zeros_and_infinities_with_every_lowest() {
    for lowest in MIN_LOWEST..=MAX_LOWEST {
        for dimension in 1..=4 {
            let p = Params { kind: FLOATS, dimension, mode: LOSSY, planes: 32, width: 64, lowest };
            let mut words = vec![0x8000_0000; block_len(&p)];
            let reply = compare_all(&p, &[0xFF; 8], 0, &words);
            assert_eq!((reply.answer, reply.count, reply.planes), (0, 1, 0));
            words[block_len(&p) - 1] = 0xFF80_0000;
            assert_eq!(compare_all(&p, &[0xFF; 8], 0, &words).answer, 9);
        }
    }
}
