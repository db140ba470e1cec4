//! Request M-101: the planes that were written whole, and those that could be read whole. All of it is worked out by hand:
//! the bits of each plane are counted on paper.

mod common;
use by_hand::planes::{self as on_paper, Planes};
use common::*;
use reference::{Params, Reply, bit_count, listing, planes, read, store};

/// Stores in a slot of that width, counts, and reads what was stored. All three must report the same planes; gives the
/// store's reply.
fn all_calls(p: &Params, words: &[u32]) -> Reply {
    let mut archive = vec![0xFF; (p.width as usize).div_ceil(8)];
    let reply = store(p, &mut archive, 0, words);
    assert_eq!(bit_count(p, words), reply, "{p:?}");
    let mut back = vec![0; words.len()];
    assert_eq!(read(p, &archive, 0, &mut back), done(words.len() as u32, reply.planes), "{p:?}");
    reply
}

/// The planes of a block by hand in a slot of that width.
fn planes_in(block: &Planes, planes: u32, width: u32) -> u32 {
    let p = params(block.kind, block.dimension, LOSSY, planes, width);
    let reply = all_calls(&p, &block.words);
    assert_eq!(reply.count as usize, block.code(planes).len().min(width as usize), "{p:?}");
    reply.planes
}

/// 29 planes of a bit each, then 110, 1110 and 010: they end at 32, 36 and 39.
#[test]
fn cut_in_bits_in_a_scan_and_before_a_test() {
    let block = on_paper::small();
    for (width, planes) in [
        (16, 16),
        (28, 28),
        (29, 29),
        // After the test of plane 2, and after its scan: only its last test, a 0, is lost.
        (30, 29),
        (31, 29),
        (32, 30),
        // Plane 1: after its first bit, after its test, and before its last test, again a 0.
        (33, 30),
        (34, 30),
        (35, 30),
        (36, 31),
        // Plane 0: within its two bits, and after them; a test is lost that is 0.
        (37, 31),
        (38, 31),
        (39, 32),
        (40, 32),
    ] {
        assert_eq!(planes_in(&block, 32, width), planes, "width {width}");
    }
}

/// 28 planes of a bit each, then 101110, 1111, 0101 and 0100: they end at 34, 38, 42 and 46.
#[test]
fn ends_at_the_last_place_and_with_all_places() {
    let block = on_paper::all_places();
    for (width, planes) in [
        (28, 28),
        (30, 28),
        (33, 28),
        (34, 29),
        // Plane 2 is 1 1 1, a test, and a one at place 3 that is known: as the test is there, the plane is whole.
        (37, 29),
        (38, 30),
        // From here n = N: a plane is its four bits.
        (41, 30),
        (42, 31),
        // Only a 0 is lost.
        (45, 31),
        (46, 32),
        (47, 32),
    ] {
        assert_eq!(planes_in(&block, 32, width), planes, "width {width}");
    }
}

/// 28 planes of a bit each, then a test and a scan of three 0s, then three planes of four 0s: they end at 32, 36, 40 and 44.
#[test]
fn a_cut_that_loses_zeros_alone() {
    let block = on_paper::last_place(1);
    for (width, planes) in
        [(29, 28), (31, 28), (32, 29), (33, 29), (35, 29), (36, 30), (39, 30), (40, 31), (43, 31), (44, 32)]
    {
        assert_eq!(planes_in(&block, 32, width), planes, "width {width}");
    }
}

/// The head has 9 bits, then the planes end at 1, 4, 6, 8, 10 and so on.
#[test]
fn floats_have_9_bits_less() {
    for dimension in 1..=4 {
        let block = on_paper::ones(dimension);
        for (width, planes) in [(16, 3), (17, 4), (18, 4), (19, 5), (72, 31), (73, 32), (74, 32)] {
            assert_eq!(planes_in(&block, 32, width), planes, "width {width}");
        }
    }
}

/// Fewer planes than the slot takes, and more.
#[test]
fn no_more_than_the_planes_coded() {
    let block = on_paper::all_places();
    for (planes, width, whole) in
        [(1, 16, 1), (5, 64, 5), (29, 34, 29), (29, 33, 28), (30, 38, 30), (30, 46, 30), (31, 45, 31)]
    {
        assert_eq!(planes_in(&block, planes, width), whole, "{planes} planes, width {width}");
    }
}

/// Every block by hand, with every P, in slots of every width up to one more than its code; the widest is 8,462.
#[test]
fn every_width_of_every_block() {
    for block in on_paper::all() {
        let step = [1, 1, 3, 11][block.dimension as usize - 1];
        for planes in 1..=32 {
            let uncut = block.code(planes).len() as u32;
            for width in (16..=uncut).step_by(step).chain([uncut.max(16), uncut.max(15) + 1, 8_462]) {
                let whole = block.whole(planes, width as usize);
                assert_eq!(planes_in(&block, planes, width), whole, "{planes} planes, width {width}");
            }
        }
    }
}

#[test]
fn a_single_0_has_none() {
    for dimension in 1..=4 {
        let n = 4usize.pow(dimension);
        let (exact, lossy) =
            (params(FLOATS, dimension, EXACT, 32, 64), params(FLOATS, dimension, LOSSY, 32, 64));
        assert_eq!(all_calls(&exact, &vec![0; n]), done(1, 0));
        assert_eq!(all_calls(&lossy, &vec![0; n]), done(1, 0));
        assert_eq!(all_calls(&lossy, &vec![0x8000_0000; n]), done(1, 0));
        // Integers have no such form: p is 1 at least, and lossy there is a test for each plane.
        assert_eq!(all_calls(&params(INTEGERS, dimension, EXACT, 32, 64), &vec![0; n]), done(6, 1));
        assert_eq!(all_calls(&params(INTEGERS, dimension, LOSSY, 20, 64), &vec![0; n]), done(20, 20));
        assert_eq!(all_calls(&params(INTEGERS, dimension, LOSSY, 32, 16), &vec![0; n]), done(16, 16));
    }
}

/// p of the head, whatever P and W are. 4 4 4 4 has the first coefficient 4, whose one bit is 2: p = 30. The head 5 bits,
/// 29 empty planes and 110 are 37.
#[test]
fn exact_blocks_have_p() {
    for planes in [1, 29, 30, 31, 32] {
        let p = params(INTEGERS, 1, EXACT, planes, 37);
        assert_eq!(all_calls(&p, &[4; 4]), done(37, 30));
        let narrow = Params { width: 36, ..p };
        assert_eq!(store(&narrow, &mut [0; 5], 0, &[4; 4]), too_long(37));
        for width in [0, 16, 36, 38] {
            assert_eq!(bit_count(&Params { width, ..p }, &[4; 4]), done(37, 30));
        }
    }
    // Four times 1.0: P5, p = 3. An infinity is raw: 0x7F800000 is 2^31 - 2^23, so the lowest bit of a coefficient is 23.
    assert_eq!(all_calls(&params(FLOATS, 1, EXACT, 32, 64), &[0x3F80_0000; 4]), done(21, 3));
    assert_eq!(all_calls(&params(FLOATS, 1, EXACT, 1, 146), &[0x7F80_0000; 4]).planes, 9);
}

/// What a slot of any bits reads as: the planes that are there.
#[test]
fn slots_that_no_store_wrote() {
    let planes_read = |p: &Params, text: &str| {
        let mut words = vec![0; 4usize.pow(p.dimension)];
        let reply = read(p, &bytes_of(&bits(text), (p.width as usize).div_ceil(8)), 0, &mut words);
        assert_eq!((reply.answer, reply.count as usize), (0, words.len()));
        reply.planes
    };
    let p = params(INTEGERS, 1, LOSSY, 32, 16);
    // 1 1 1 1 1 1 1 in plane 31: a one at each place, the last known. Two planes of four bits follow, and a bit.
    assert_eq!(planes_read(&p, "1111111 1111 1111 1"), 3);
    // n = 1 after 110. Then a bit as it is, a test and a bit twice, and a test: six. Four of plane 29, and three of plane 28.
    assert_eq!(planes_read(&p, "110 111111 1111 111"), 3);
    // Six planes of a bit and a test, then a bit whose test is lost.
    assert_eq!(planes_read(&p, "110 000000000000 1"), 7);
    // A scan from place 1 that is cut at place 2, and one that has come to place 3.
    assert_eq!(planes_read(&p, "0000000000 110 0 1 0"), 10 + 1);
    assert_eq!(planes_read(&p, "000000000 110 0 1 00"), 9 + 2);
    // P ends the reading before the slot does.
    assert_eq!(planes_read(&Params { planes: 2, ..p }, "1111111 1111 1111 1"), 2);
    // Zeros: 16 planes of 16 bits, of floats none.
    assert_eq!(planes_read(&p, ""), 16);
    assert_eq!(planes_read(&Params { kind: FLOATS, ..p }, ""), 0);
    assert_eq!(planes_read(&Params { kind: FLOATS, ..p }, "0111111111111111"), 0);
    // Seven bits after the head: the first plane alone, or seven, or none of 16 words.
    assert_eq!(planes_read(&Params { kind: FLOATS, ..p }, "1 11111111 1111111"), 1);
    assert_eq!(planes_read(&Params { kind: FLOATS, ..p }, "1 11111111"), 7);
    assert_eq!(planes_read(&Params { kind: FLOATS, dimension: 2, ..p }, "1 11111111 1111111"), 0);
}

/// The coder by itself, for words of 64 bits too. All planes of ones: 7 bits, then 4 for each further one.
#[test]
fn the_coder_and_its_reader() {
    for budget in 0..=7 + 4 * 63 {
        let whole = if budget < 7 { 0 } else { 1 + (budget as u32 - 7) / 4 };
        let code = planes::code_within(&[u64::MAX; 4], 64, budget);
        assert_eq!((code.bits.len(), code.planes), (budget, whole));
        assert_eq!(planes::read::<u64>(&code.bits, 4, 64).1, whole);
        let code = planes::code_within(&[u32::MAX; 4], 32, budget);
        assert_eq!((code.bits.len(), code.planes), (budget.min(7 + 4 * 31), whole.min(32)));
        assert_eq!(planes::read::<u32>(&code.bits, 4, 32).1, whole.min(32));
    }
    let (code, ends) = planes::code_and_ends(&[6u32, 3, 0, 0], 32);
    assert_eq!((code.len(), &ends[28..]), (39, &[29, 32, 36, 39][..]));
}

/// Lossy integers in 32 bits: 1 2 3 4 has 30 planes, 0 0 0 16 has 28; P = 32, W = 0x20. A bad line has none.
#[test]
fn the_listing_has_two_digits_after_the_count() {
    let input = "0001002000200000\n00000001000000020000000300000004\n00000000000000000000000000000010\n0\n";
    let output = String::from_utf8(listing(input.as_bytes())).unwrap();
    // 29 zeros and 110; 28 zeros and 1011, the lowest bit of a byte first.
    assert_eq!(output, "0000201e00000060\n0000201c000000d0\n0c000000\n");
}
