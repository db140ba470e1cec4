//! The refusals, in their order.

use crate::common::*;
use crate::compare::*;
use crate::make::*;
use reference::{Params, Reply};
use windlassow::Done;

const KINDS: [u32; 4] = [0, 1, 2, u32::MAX];
const DIMENSIONS: [u32; 7] = [0, 1, 2, 3, 4, 5, u32::MAX];
const MODES: [u32; 4] = [0, 1, 2, u32::MAX];
const PLANES: [u32; 6] = [0, 1, 20, 32, 33, u32::MAX];
const WIDTHS: [u32; 14] = [0, 1, 8, 15, 16, 17, 64, 136, 1025, 8461, 8462, 8463, u32::MAX - 7, u32::MAX];
const LOWESTS: [i32; 8] = [i32::MIN, -301, -300, 0, 300, 301, 65_236, i32::MAX];
const LENGTHS: [usize; 12] = [0, 1, 2, 3, 16, 17, 200, 1_057, 1_058, 65_535, 65_536, 65_537];
const WORD_COUNTS: [usize; 13] = [0, 1, 3, 4, 5, 15, 16, 17, 63, 64, 255, 256, 257];

/// Calls every slot call with any mixture of good and bad numbers and buffers.
fn compare_refusals(random: &mut Random, p: &Params, archive: &[u8], answers: &mut Answers) {
    let is_block = (1..=4).contains(&p.dimension) && random.once_in(2);
    let len = if is_block { block_len(p) } else { random.pick(&WORD_COUNTS) };
    let maker = random.below(MAKERS);
    let words = if is_block { block(random, maker, len) } else { vec![0x7FC0_0000; len] };
    let count = reference::slot_count(p, archive).count as usize;
    let slot = random.pick(&[
        0,
        1,
        count.wrapping_sub(1),
        count,
        count + 1,
        u32::MAX as usize,
        1 << 32,
        usize::MAX / 8,
        usize::MAX / 16 + 1,
        usize::MAX - 1,
        usize::MAX,
    ]);
    answers.count(compare_store(p, archive, slot, &words).0.answer);
    answers.count(compare_read(p, archive, slot, len).0.answer);
    compare_counts(p, archive, &words).into_iter().for_each(|reply| answers.count(reply.answer));
}

#[test]
fn refusals_in_their_order() {
    let mut random = Random::new(15);
    let mut answers = Answers::none();
    let noise = random.bytes(65_537);
    for _ in 0..rounds(60_000) {
        // Mostly good numbers, so that the later rows are reached.
        let often = random.pick(&[1, 3, 10, 1000]);
        let mut number = |good: &[u32], any: &[u32]| {
            if random.once_in(often) { random.pick(any) } else { random.pick(good) }
        };
        let p = Params {
            kind: number(&[0, 1], &KINDS),
            dimension: number(&[1, 1, 1, 2, 2, 3, 4], &DIMENSIONS),
            mode: number(&[0, 1], &MODES),
            planes: number(&[1, 20, 32], &PLANES),
            width: number(&[0, 16, 17, 64, 136, 1024, 8462], &WIDTHS),
            lowest: if random.once_in(often) { random.pick(&LOWESTS) } else { any_lowest(&mut random) },
        };
        // Long archives are few, since they take long to copy.
        let lengths = if random.once_in(50) { &LENGTHS[..] } else { &LENGTHS[..9] };
        let archive = &noise[..random.pick(lengths)];
        compare_refusals(&mut random, &p, archive, &mut answers);
    }
    answers.must_include(&[0, 1, 2, 3, 4, 5, 13, 6, 7, 8, 9, 10, 11]);
}

/// Every mixture of good and bad parameters, once with good buffers and once with bad ones.
#[test]
fn every_mixture_of_parameters() {
    let mut random = Random::new(16);
    let mut answers = Answers::none();
    let noise = random.bytes(300);
    for kind in KINDS {
        for dimension in DIMENSIONS {
            for mode in MODES {
                for planes in PLANES {
                    for width in WIDTHS {
                        for lowest in LOWESTS {
                            let p = Params { kind, dimension, mode, planes, width, lowest };
                            compare_refusals(&mut random, &p, &noise, &mut answers);
                        }
                    }
                }
            }
        }
    }
    answers.must_include(&[0, 1, 2, 3, 4, 5, 13, 7, 8]);
}

/// Every call on the library alone: a good one but for the parameters, and such as the rows 6, 7, 8, 9 or 11 would refuse too. The
/// answer is this row, and nothing is changed.
fn every_call_is_refused(p: &Params, row: u32) {
    let cases: [(usize, usize, &[u32]); 5] = [
        (17, 0, &[0; 4]),
        (65_537, 0, &[0; 4]),
        (17, 1, &[0; 4]),
        (17, 0, &[0; 5]),
        (17, 0, &[0x7FC0_0000; 4]),
    ];
    for (len, slot, words) in cases {
        let mut archive = Guarded::new(&vec![0xA5; len], 0x5A);
        let mut back = Guarded::new(words, NO_WORD);
        let answers = [
            reply(windlassow::store(ours(p), &mut archive, slot, words)),
            reply(windlassow::read(ours(p), &vec![0xFE; len], slot, &mut back)),
            reply(windlassow::slot_count(ours(p), &archive).map(|count| Done { count, planes: 0 })),
            reply(windlassow::bit_count(ours(p), words)),
        ];
        assert_eq!(answers, [Reply::refused(row); 4], "{p:?}");
        assert!(archive.is_unchanged() && back.is_unchanged(), "{p:?}");
    }
}

/// Row 13 alone and with each other row: 1 to 5 come before it, the others after it, in every kind and mode.
#[test]
fn row_13_comes_between_5_and_6() {
    for lowest in [i32::MIN, -301, 301, i32::MAX] {
        for (kind, _, mode) in all_kinds().filter(|kind| kind.1 == 1) {
            let bad = Params { kind, dimension: 1, mode, planes: 32, width: 136, lowest };
            every_call_is_refused(&bad, 13);
            every_call_is_refused(&Params { kind: 2, ..bad }, 1);
            every_call_is_refused(&Params { dimension: 5, ..bad }, 2);
            every_call_is_refused(&Params { mode: 2, ..bad }, 3);
            every_call_is_refused(&Params { planes: 33, ..bad }, 4);
            every_call_is_refused(&Params { width: 15, ..bad }, 5);
            // A code that is longer than W, row 10.
            let narrow = ours(&Params { width: 16, ..bad });
            let mut archive = [0xA5; 2];
            let answer = reply(windlassow::store(narrow, &mut archive, 0, &[1, 20, 300, 4000]));
            assert_eq!((answer, archive), (Reply::refused(13), [0xA5; 2]));
        }
    }
}
