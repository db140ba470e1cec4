//! The refusals of a copy: each alone, each pair in its order, and any mixture.

use crate::common::*;
use crate::compare::*;
use crate::make::any_lowest;
use reference::{Params, Reply, bits};

/// What a copy is called with.
struct Call {
    p: Params,
    archive: Vec<u8>,
    new: Vec<u8>,
}

/// Four slots of zeros, 8,462 bits wide, to an archive of 109 full slots of 146 bits. It is done.
fn good(kind: u32) -> Call {
    Call { p: exact(kind, 1, 8_462), archive: vec![0; 4_231], new: vec![0xA5; 2_000] }
}

/// What is wrong with a call, and the row that refuses it.
type Fault = (u32, fn(&mut Call));

/// In the order of the rows. The archive that is too long has 61 slots, the new one that is too short three; slot 2 cannot be
/// read.
const FAULTS: [Fault; 22] = [
    (1, |call| call.p.kind = 2),
    (1, |call| call.p.kind = u32::MAX),
    (2, |call| call.p.dimension = 0),
    (2, |call| call.p.dimension = 5),
    (3, |call| call.p.mode = LOSSY),
    (3, |call| call.p.mode = 2),
    (3, |call| call.p.mode = u32::MAX),
    (4, |call| call.p.planes = 0),
    (4, |call| call.p.planes = 33),
    (5, |call| call.p.width = 1),
    (5, |call| call.p.width = 15),
    (5, |call| call.p.width = 8_463),
    (13, |call| call.p.lowest = MIN_LOWEST - 1),
    (13, |call| call.p.lowest = MAX_LOWEST + 1),
    (13, |call| call.p.lowest = i32::MIN),
    (6, |call| call.archive.resize(65_537, 0)),
    (6, |call| call.archive.resize(100_000, 0xFF)),
    (6, |call| call.new.resize(65_537, 0xA5)),
    (6, |call| call.new.resize(200_000, 0xA5)),
    (14, |call| call.new.truncate(72)),
    (14, |call| call.new.truncate(0)),
    (11, |call| bits::set(&mut call.archive, 3 * 8_462 - 1, true)),
];

/// The library refuses the call with this row, and nothing is changed. 11 has the number of the slot.
fn is_refused(call: &Call, row: u32, what: &str) {
    let expected = if row == 11 { Reply::needs(11, 2) } else { Reply::refused(row) };
    let lent = Guarded::new(&call.archive, 0x5A);
    let mut new = Guarded::new(&call.new, 0xC3);
    let given = copy_reply(windlassow::copy(ours(&call.p), &lent, &mut new));
    assert_eq!(given, expected, "{what}: {:?}, {} to {} bytes", call.p, lent.len(), new.len());
    assert!(lent.is_unchanged() && new.is_unchanged(), "{what}");
    assert_eq!(reference::copy(&call.p, &call.archive, &mut call.new.clone()), expected, "the reference");
}

#[test]
fn each_refusal_alone() {
    for kind in [INTEGERS, FLOATS] {
        let Call { p, archive, mut new } = good(kind);
        assert_eq!(windlassow::copy(ours(&p), &archive, &mut new), Ok(4));
        for (row, fault) in FAULTS {
            let mut call = good(kind);
            fault(&mut call);
            is_refused(&call, row, &format!("row {row} alone"));
        }
    }
}

/// The row that comes first refuses the call: of each pair, and of each row with all later ones.
#[test]
fn each_pair_of_refusals() {
    for kind in [INTEGERS, FLOATS] {
        for (place, (row, fault)) in FAULTS.into_iter().enumerate() {
            let mut with_all = good(kind);
            for (later, other) in FAULTS[place + 1..].iter().rev().filter(|later| later.0 != row) {
                let mut call = good(kind);
                other(&mut call);
                fault(&mut call);
                is_refused(&call, row, &format!("rows {row} and {later}"));
                other(&mut with_all);
            }
            fault(&mut with_all);
            is_refused(&with_all, row, &format!("row {row} and all later ones"));
        }
    }
}

/// A new archive that is too long and has fewer slots than the old one: 32,768 of 16 bits.
#[test]
fn a_new_archive_too_long_with_too_few_slots() {
    let call = Call { p: exact(INTEGERS, 1, 16), archive: vec![0; 65_536], new: vec![0xA5; 65_537] };
    is_refused(&call, 6, "6 and 14");
    let call = Call { new: vec![0xA5; 65_536], ..call };
    is_refused(&call, 14, "14");
    // The first slot of the old one cannot be read.
    let call = Call { archive: vec![0xFF; 65_536], ..call };
    is_refused(&call, 14, "14 and 11");
}

/// The slots are counted and not the bytes: of the new archive those of 33N + 14 bits, of the old one those of W bits.
#[test]
fn as_many_slots_as_the_old_archive() {
    for (kind, dimension) in all_kinds() {
        for width in [0, 16, 8 * 4u32.pow(dimension), 8_462] {
            let p = exact(kind, dimension, width);
            for slots in 1..=4 {
                let archive = vec![0; (slots * width_of(&p)).div_ceil(8)];
                let least = room(&p, slots);
                for (len, answer) in [(least - 1, 14), (least, 0), (least + 1, 0), (0, 14)] {
                    let given = compare_copy(&p, &archive, &vec![0xA5; len]).0;
                    assert_eq!(given.answer, answer, "{p:?}, {slots} slots to {len} bytes");
                }
            }
        }
    }
}

/// Any mixture of good and bad numbers and buffers.
#[test]
fn refusals_in_their_order() {
    let mut random = Random::new(67);
    let mut answers = Answers::none();
    let noise = random.bytes(65_537);
    let zeros = vec![0; 65_537];
    let lengths = [0, 2, 4, 18, 19, 37, 200, 68, 267, 1_058, 2_116, 65_536, 65_537];
    for _ in 0..rounds(8_000) {
        let often = random.pick(&[2, 6, 30, 1000]);
        let mut number = |good: &[u32], any: &[u32]| {
            if random.once_in(often) { random.pick(any) } else { random.pick(good) }
        };
        let p = Params {
            kind: number(&[0, 1], &[2, u32::MAX]),
            dimension: number(&[1, 1, 2, 3, 4], &[0, 5, u32::MAX]),
            mode: number(&[1], &[0, 0, 2, u32::MAX]),
            planes: number(&[1, 20, 32], &[0, 33, u32::MAX]),
            width: number(&[0, 16, 32, 136, 146, 1024, 8462], &[1, 15, 8463, u32::MAX]),
            lowest: if random.once_in(often) { random.pick(&[-301, 301]) } else { any_lowest(&mut random) },
        };
        let mut length = || {
            let few = if random.once_in(20) { &lengths[..] } else { &lengths[..11] };
            random.pick(few)
        };
        let (old_len, new_len) = (length(), length());
        let archive = if random.once_in(2) { &noise[..old_len] } else { &zeros[..old_len] };
        answers.count(compare_copy(&p, archive, &noise[..new_len]).0.answer);
    }
    answers.must_include(&[0, 1, 2, 3, 4, 5, 13, 6, 14, 11]);
}
