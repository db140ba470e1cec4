//! The refusals of a piece and of a close: each alone, all combinations in their order, and any mixture.

use crate::common::*;
use crate::compare::*;
use crate::make::*;
use reference::FpcReply;
use reference::fpc::stream_of;

/// What is wrong with a piece, in the order in which it is refused.
const CLOSED: usize = 0;
const TABLES: usize = 1;
const LONG: usize = 2;
const OLD_DAMAGE: usize = 3;
const SHORT: usize = 4;
const NEW_DAMAGE: usize = 5;

/// Two doubles of a stream of zeros and then damage, or two pairs of zeros.
fn piece_of(faults: [bool; 6]) -> Vec<u8> {
    let mut bytes = if faults[NEW_DAMAGE] { vec![0x77, 0xff] } else { vec![0x77, 0x77] };
    if faults[LONG] {
        bytes.resize(65_537, 0x77);
    }
    bytes
}

/// What the first of the faults gives: the piece of [`piece_of`] has four doubles, or two before the damage.
fn reply_to(faults: [bool; 6], bytes: &[u8]) -> FpcReply {
    match faults.iter().position(|&fault| fault) {
        Some(CLOSED) => FpcReply::refused(25),
        Some(TABLES) => FpcReply::refused(20),
        Some(LONG) => FpcReply::refused(21),
        Some(OLD_DAMAGE) => FpcReply::refused(23),
        Some(SHORT) => FpcReply::needs(22, 2 * bytes.len()),
        Some(_) => FpcReply { answer: 23, count: 2 },
        None => FpcReply::done(4),
    }
}

/// A transfer of two zeros, open or closed, damaged or not.
fn two_zeros(random: &mut Random, faults: [bool; 6]) -> Compared {
    let mut transfer = Compared::opened(random, 64);
    transfer.piece(&[0x77], 2);
    if faults[OLD_DAMAGE] {
        assert_eq!(transfer.piece(&[0xff], 2), FpcReply::refused(23));
    }
    if faults[CLOSED] {
        transfer.close();
    }
    transfer
}

/// After it the transfer goes on as if the piece had not been there, unless that was taken in.
fn goes_on(transfer: &mut Compared, faults: [bool; 6]) {
    let is_refused = faults[..NEW_DAMAGE].contains(&true);
    let is_damaged = faults[OLD_DAMAGE] || (faults[NEW_DAMAGE] && !is_refused);
    let expected = match (faults[CLOSED], is_damaged) {
        (true, _) => [FpcReply::refused(25); 2],
        (_, true) => [FpcReply::refused(23); 2],
        // Two zeros came before, one more now, and four if the piece was taken in.
        _ => [FpcReply::done(1), FpcReply::done(if is_refused { 3 } else { 7 })],
    };
    assert_eq!([transfer.piece(&[0x76, 0x00], 4), transfer.close()], expected, "{faults:?}");
}

/// Every combination of what can be wrong, with tables that are wrong in every way and with room that is short in every way.
#[test]
fn every_combination() {
    let mut random = Random::new(231);
    let mut answers = Answers::none();
    let other_tables = [(32, 32), (128, 128), (64, 32), (32, 64), (48, 48), (0, 0), (64, 65), (2048, 2048)];
    for combination in 0..1 << 6 {
        let faults: [bool; 6] = std::array::from_fn(|fault| combination >> fault & 1 == 1);
        let bytes = piece_of(faults);
        let good_rooms = [2 * bytes.len(), 2 * bytes.len() + 1];
        let short_rooms = [0, 1, 2, 2 * bytes.len() - 1];
        let rooms = if faults[SHORT] { &short_rooms[..] } else { &good_rooms[..] };
        let lens = if faults[TABLES] { &other_tables[..] } else { &[(64, 64)][..] };
        for &room in rooms {
            for &lens in lens {
                let mut transfer = two_zeros(&mut random, faults);
                let given = if faults[TABLES] {
                    transfer.piece_with(&mut random, lens, &bytes, room)
                } else {
                    transfer.piece(&bytes, room)
                };
                assert_eq!(given, reply_to(faults, &bytes), "{faults:?}, room {room}, tables of {lens:?}");
                goes_on(&mut transfer, faults);
                answers.count(given.answer);
            }
        }
    }
    answers.must_include(&[0, 20, 21, 22, 23, 25]);
}

/// Tables of every length in place of those of the opening, equal in length or not.
#[test]
fn tables_of_every_length() {
    let mut random = Random::new(232);
    for size in SIZES {
        let mut transfer = Compared::opened(&mut random, size);
        transfer.piece(&[0x66, 0x05], 4);
        for other in (0..=1100).chain([2047, 2048, 4096]).filter(|&other| other != size) {
            let lens = random.pick(&[(other, other), (size, other), (other, size)]);
            assert_eq!(transfer.piece_with(&mut random, lens, &[0x00], 2), FpcReply::refused(20), "{lens:?}");
        }
        // An empty piece too.
        for other in SIZES.into_iter().filter(|&other| other != size) {
            for lens in [(other, other), (size, other), (other, size)] {
                assert_eq!(transfer.piece_with(&mut random, lens, &[], 0), FpcReply::refused(20), "{lens:?}");
            }
        }
        assert_eq!([transfer.piece(&[0x00], 2), transfer.close()], [FpcReply::done(0), FpcReply::done(1)]);
    }
}

/// Every room around twice the piece's bytes, for pieces that give as many doubles as can be and for such that give none.
#[test]
fn every_room() {
    let mut random = Random::new(233);
    for len in 0..8 {
        for bytes in [vec![0x77; len], vec![0x00; len]] {
            for room in 0..2 * len + 4 {
                let mut transfer = Compared::opened(&mut random, 16);
                let given = transfer.piece(&bytes, room);
                let doubles = if bytes.starts_with(&[0x77]) { 2 * len } else { 0 };
                let expected =
                    if room < 2 * len { FpcReply::needs(22, 2 * len) } else { FpcReply::done(doubles) };
                assert_eq!(given, expected, "{len} bytes, room {room}");
                transfer.close();
            }
        }
    }
}

/// Short room after the odd end, after 4,096 doubles and within a double is 22 as long as no damage has shown; an empty piece
/// needs none.
#[test]
fn short_room_at_the_end() {
    let mut random = Random::new(234);
    let full = vec![0x77; 2_048];
    for (stream, doubles) in [(vec![0x66, 0x05, 0x00], 1), (full, 4_096)] {
        let mut transfer = Compared::opened(&mut random, 16);
        assert_eq!(transfer.piece(&stream, 2 * stream.len()), FpcReply::done(doubles));
        for room in [0, 1] {
            assert_eq!(transfer.piece(&[0x77], room), FpcReply::needs(22, 2));
            assert_eq!(transfer.piece(&[], room), FpcReply::done(0));
        }
        assert_eq!(transfer.piece(&[0x77], 2), FpcReply::refused(23));
        for (bytes, room) in [(&[0x77][..], 1), (&[0x77], 2), (&[], 0), (&[0x77; 100], 0)] {
            assert_eq!(transfer.piece(bytes, room), FpcReply::refused(23));
        }
        assert_eq!(transfer.close(), FpcReply::refused(23));
    }
}

/// Pieces of 65,536 bytes are taken in, longer ones are not, in all states.
#[test]
fn the_longest_pieces() {
    let mut random = Random::new(235);
    let long = vec![0x77; 65_537];
    // In the second place half byte 6 and byte 77 are the double 0x77, and every half byte 7 after it the same again.
    let starts: [(&[u8], u32); 4] = [(&[], 4_096), (&[0x77], 4_094), (&[0x76], 4_095), (&[0x76, 0x00], 0)];
    for (start, doubles) in starts {
        for len in [65_535, 65_536] {
            let mut transfer = Compared::opened(&mut random, 16);
            transfer.piece(start, 4);
            assert_eq!(transfer.piece(&long, 131_074), FpcReply::refused(21));
            assert_eq!(transfer.piece(&long, 0), FpcReply::refused(21));
            assert_eq!(transfer.piece(&long[..len], 2 * len - 1), FpcReply::needs(22, 2 * len));
            let given = transfer.piece(&long[..len], 2 * len);
            assert_eq!(given, FpcReply { answer: 23, count: doubles }, "after {start:x?}");
            assert_eq!(transfer.piece(&long, 131_074), FpcReply::refused(21));
            assert_eq!(transfer.piece(&long[..len], 0), FpcReply::refused(23));
            assert_eq!(transfer.close(), FpcReply::refused(23));
        }
    }
}

/// After a close nothing is taken, whatever the pieces; a second close has nothing to close.
#[test]
fn use_after_a_close() {
    let mut random = Random::new(236);
    let streams: [(&[u8], u32); 5] =
        [(&[], 0), (&[0x77], 0), (&[0x76, 0x00], 0), (&[0x66, 0x05], 23), (&[0xff], 23)];
    for (stream, answer) in streams {
        let mut transfer = Compared::opened(&mut random, 16);
        transfer.piece(stream, 2 * stream.len());
        assert_eq!(transfer.close().answer, answer);
        for (bytes, room) in [(&[][..], 0), (&[0x77], 2), (&[0x77], 0), (&[0x00; 3], 6)] {
            assert_eq!(transfer.piece(bytes, room), FpcReply::refused(25));
        }
        assert_eq!(transfer.piece_with(&mut random, (16, 32), &[0x77], 2), FpcReply::refused(25));
        assert_eq!([transfer.close(), transfer.close()], [FpcReply::refused(25); 2]);
        transfer.open(&mut random, (32, 32));
        assert_eq!([transfer.piece(&[0x77], 2), transfer.close()], [FpcReply::done(2); 2]);
    }
}

/// Any calls in any order on one record, as a stream goes on or another begins.
#[test]
fn any_mixture_of_calls() {
    let mut random = Random::new(237);
    let mut transfer = Compared::closed(&mut random);
    let mut rest: Vec<u8> = Vec::new();
    for _ in 0..rounds(40_000) {
        match random.below(40) {
            0..3 => {
                let size = random.pick(&SIZES);
                transfer.open(&mut random, (size, size));
                let (maker, len) = (random.below(MAKERS), random.below(16));
                let run = run(&mut random, maker, size, len);
                rest = stream_of(size, &run).0;
                if random.once_in(3) {
                    rest.extend([random.byte(), 0x77]);
                }
            }
            3 => {
                let lens = (random.pick(&[0, 8, 16, 32]), random.pick(&[16, 17, 64, 4096]));
                transfer.open(&mut random, lens);
            }
            4 | 5 => {
                transfer.close();
            }
            6..10 => transfer.refused_piece(&mut random),
            _ => {
                let len = random.below(rest.len().min(9) + 1);
                let room = if random.once_in(6) { random.below(2 * len + 1) } else { 2 * len };
                if transfer.piece(&rest[..len], room).answer == 0 {
                    rest.drain(..len);
                }
            }
        }
    }
    transfer.answers.must_include(&[0, 20, 21, 22, 23, 25]);
}
