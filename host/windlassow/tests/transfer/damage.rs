//! Streams that no writer has written: the doubles before the damage are the same for every cut.

use crate::common::*;
use crate::compare::*;
use crate::cuts::*;
use crate::fit::bytes_of_half;
use crate::make::*;
use reference::FpcReply;
use reference::fpc::{Predictors, stream_of};
use testing::cut_at;

/// Sends the bytes in one piece, byte by byte and in any pieces. All give the same doubles and leave the same tables. Counts the
/// answers of the closes.
fn in_three_ways(random: &mut Random, size: usize, bytes: &[u8], answers: &mut Answers) {
    let (whole, close) = send(random, size, &[bytes], false);
    let count = random.below(6);
    let pieces = any_cut(random, bytes, count);
    let is_disturbed = random.once_in(8);
    for pieces in [bytes.chunks(1).collect(), pieces] {
        let (transfer, other_close) = send(random, size, &pieces, is_disturbed);
        assert!(transfer.doubles == whole.doubles, "tables of {size}, {}", shown(bytes));
        assert!(transfer.tables() == whole.tables(), "tables of {size}, {}", shown(bytes));
        assert_eq!(other_close, close, "tables of {size}, {}", shown(bytes));
        assert_eq!(transfer.is_damaged(), whole.is_damaged(), "tables of {size}, {}", shown(bytes));
    }
    answers.count(close.answer);
}

#[test]
fn streams_damaged_at_every_byte() {
    let mut random = Random::new(221);
    let mut answers = Answers::none();
    for _ in 0..rounds(10) {
        let size = random.pick(&SIZES);
        let (maker, len) = (random.below(MAKERS), random.below(14));
        let run = run(&mut random, maker, size, len);
        let (stream, _) = stream_of(size, &run);
        for at in 0..stream.len() {
            for flip in (0..8).map(|k| 1 << k).chain([0x88, 0x77, random.byte() | 1]) {
                let mut damaged = stream.clone();
                damaged[at] ^= flip;
                in_three_ways(&mut random, size, &damaged, &mut answers);
            }
        }
    }
    answers.must_include(&[0, 23]);
}

/// Short streams with a byte changed or more bytes after them, in all their cuts.
#[test]
fn every_cut_of_short_streams() {
    let mut random = Random::new(220);
    let mut answers = Answers::none();
    for _ in 0..rounds(200) {
        let size = random.pick(&[16, 16, 64, 1024]);
        let run = short_run(&mut random, size);
        let (mut stream, _) = stream_of(size, &run);
        stream.extend([random.pick(&[0x00, 0x66, 0x77, 0x7F, 0xFF]), 0x77]);
        let (at, bit) = (random.below(stream.len()), random.below(8));
        stream[at] ^= random.pick(&[0, 0x08, 0x80, 1 << bit]);
        stream.truncate(9);
        let (whole, close) = send(&mut random, size, &[&stream], false);
        for places in 0..1 << (stream.len() - 1) {
            let (transfer, other_close) = send(&mut random, size, &cut_at(&stream, places), false);
            assert_eq!(transfer.doubles, whole.doubles, "{} cut at {places:b}", shown(&stream));
            assert!(transfer.tables() == whole.tables(), "{} cut at {places:b}", shown(&stream));
            assert_eq!(
                (transfer.is_damaged(), other_close),
                (whole.is_damaged(), close),
                "{}",
                shown(&stream)
            );
        }
        answers.count(if whole.is_damaged() { 23 } else { 0 });
    }
    answers.must_include(&[0, 23]);
}

/// A byte lost, a byte twice, and two bytes that changed places.
#[test]
fn streams_with_bytes_lost() {
    let mut random = Random::new(222);
    let mut answers = Answers::none();
    for _ in 0..rounds(300) {
        let size = random.pick(&SIZES);
        let (maker, len) = (random.below(MAKERS), 1 + random.below(30));
        let run = run(&mut random, maker, size, len);
        let (mut stream, _) = stream_of(size, &run);
        let (at, other) = (random.below(stream.len()), random.below(stream.len()));
        match random.below(3) {
            0 => drop(stream.remove(at)),
            1 => stream.insert(at, stream[at]),
            _ => stream.swap(at, other),
        }
        in_three_ways(&mut random, size, &stream, &mut answers);
    }
    answers.must_include(&[0, 23]);
}

/// All streams of one byte and of two bytes, and of three bytes that begin like a short stream.
#[test]
fn all_short_streams() {
    let mut random = Random::new(223);
    let mut answers = Answers::none();
    let mut both = |stream: &[u8]| {
        let (whole, close) = send(&mut random, 16, &[stream], false);
        let (bytes, other_close) = send(&mut random, 16, &stream.chunks(1).collect::<Vec<_>>(), false);
        assert_eq!((&whole.doubles, whole.tables()), (&bytes.doubles, bytes.tables()), "{stream:x?}");
        assert_eq!((whole.is_damaged(), close), (bytes.is_damaged(), other_close), "{stream:x?}");
        answers.count(close.answer);
    };
    for first in 0..=255 {
        both(&[first]);
        (0..=255).for_each(|second| both(&[first, second]));
    }
    for first in [0x66, 0x67, 0x76, 0x77, 0x57, 0x75, 0x6E, 0xE6, 0x56] {
        for second in 0..=255 {
            for third in [0, 1, 0x66, 0x67, 0x76, 0x77, 0x7F, 0xF7] {
                both(&[first, second, third]);
            }
        }
    }
    answers.must_include(&[0, 23]);
}

/// Streams in the writer's form whose sides or codes the writer would not have chosen.
#[test]
fn streams_that_a_looser_reader_would_take() {
    let mut random = Random::new(224);
    let mut answers = Answers::none();
    for _ in 0..rounds(2000) {
        let size = random.pick(&SIZES);
        let len = 1 + random.below(12);
        let stream = loose_stream(&mut random, size, len);
        in_three_ways(&mut random, size, &stream, &mut answers);
    }
    answers.must_include(&[0, 23]);
}

#[test]
fn random_bytes() {
    let mut random = Random::new(225);
    let mut answers = Answers::none();
    for _ in 0..rounds(1000) {
        let size = random.pick(&SIZES);
        let len = random.below(60);
        let stream = random.bytes(len);
        in_three_ways(&mut random, size, &stream, &mut answers);
    }
    answers.must_include(&[0, 23]);
}

/// Tables of another length than the writer's give what the rules give.
#[test]
fn another_table_size() {
    let mut random = Random::new(226);
    let mut answers = Answers::none();
    for _ in 0..rounds(200) {
        let (written, read) = (random.pick(&SIZES), random.pick(&SIZES));
        let (maker, len) = (random.below(MAKERS), random.below(60));
        let run = run(&mut random, maker, written, len);
        let (stream, _) = stream_of(written, &run);
        in_three_ways(&mut random, read, &stream, &mut answers);
    }
    answers.must_include(&[0, 23]);
}

/// Any byte after the odd end, in the same piece or in a later one.
#[test]
fn bytes_after_the_odd_end() {
    let mut random = Random::new(227);
    for after in 0..=255 {
        let size = random.pick(&SIZES);
        let (maker, len) = (random.below(MAKERS), 1 + 2 * random.below(8));
        let run = run(&mut random, maker, size, len);
        let (mut stream, _) = stream_of(size, &run);
        let end = stream.len();
        stream.extend([after, random.byte()]);
        for start in [0, end - 1, end] {
            for stop in [end + 1, end + 2] {
                let mut transfer = Compared::opened(&mut random, size);
                assert_eq!(transfer.piece(&stream[..start], 2 * start).answer, 0);
                let given = transfer.piece(&stream[start..stop], 2 * (stop - start));
                assert_eq!((given.answer, &transfer.doubles), (23, &run), "{}", shown(&stream));
                assert_eq!(transfer.close().answer, 23);
            }
        }
    }
}

/// Any byte after 4,096 doubles, and streams of more doubles.
#[test]
fn bytes_after_4096_doubles() {
    let mut random = Random::new(228);
    for (k, after) in [0x00, 0x60, 0x66, 0x70, 0x76, 0x77, 0x7F, 0xF7, 0xFF].into_iter().enumerate() {
        let size = SIZES[k % SIZES.len()];
        let run = run(&mut random, k % MAKERS, size, 4_096);
        let (mut stream, _) = stream_of(size, &run);
        let end = stream.len();
        stream.extend([after, random.byte()]);
        for start in [0, end - 1, end] {
            let mut transfer = Compared::opened(&mut random, size);
            assert_eq!(transfer.piece(&stream[..start], 2 * start).answer, 0);
            let given = transfer.piece(&stream[start..], 2 * (end + 2 - start));
            assert!((given.answer, &transfer.doubles) == (23, &run), "{after:x}");
            assert_eq!(transfer.close().answer, 23);
        }
        // Without these bytes it is a stream, and an empty piece is no damage.
        let (transfer, close) = send(&mut random, size, &[&stream[..end], &[]], false);
        assert_eq!((transfer.is_damaged(), close), (false, FpcReply::done(4_096)), "{after:x}");
    }
    let maker = random.below(MAKERS);
    let longer = run(&mut random, maker, 64, 4_100);
    gives_before_damage(&mut random, 64, &stream_of(64, &longer).0, &longer[..4_096]);
    gives_before_damage(&mut random, 16, &[0x77; 65_536], &[0; 4_096]);
}

/// A stream with damage after this run, in one piece and cut in three.
fn gives_before_damage(random: &mut Random, size: usize, stream: &[u8], run: &[u64]) {
    for count in [0, 2] {
        let pieces = any_cut(random, stream, count);
        let (transfer, close) = send(random, size, &pieces, false);
        assert_eq!((transfer.is_damaged(), close), (true, FpcReply::refused(23)), "{}", shown(stream));
        assert!(transfer.doubles == run, "{}", shown(stream));
    }
}

/// Every half byte in the first and in the second place with any bytes, one at a time: no byte before the last says anything.
#[test]
fn half_bytes_with_their_bytes_one_at_a_time() {
    let mut random = Random::new(229);
    let mut answers = Answers::none();
    for round in 0..rounds(20) {
        for half in 0..16 {
            let size = random.pick(&SIZES);
            let len = 2 * random.below(5) + round % 2;
            let run = near_predictions(&mut random, size, len + 1);
            let mut transfer = begun(&mut random, size, &run[..len], half as u8);
            let bytes = bytes_of_half(half);
            for k in 1..=bytes {
                let byte = if random.once_in(3) { 0 } else { random.byte() };
                let given = transfer.piece(&[byte], 2);
                let is_last = k == bytes;
                assert!(is_last || given == FpcReply::done(0), "half byte {half}, byte {k}");
                answers.count(given.answer);
            }
            transfer.close();
        }
    }
    answers.must_include(&[0, 23]);
}

/// A transfer up to the half byte of the double after this run, and not further.
fn begun(random: &mut Random, size: usize, run: &[u64], half: u8) -> Compared {
    let mut predictors = Predictors::new(size);
    let (pairs, last) = run.split_at(run.len() - run.len() % 2);
    let (mut stream, _) = stream_of(size, pairs);
    pairs.iter().for_each(|&v| predictors.update(v));
    match last {
        [] => stream.push(half << 4 | 7),
        [v, ..] => {
            let (first, bytes) = predictors.code(*v);
            stream.push(first << 4 | half);
            stream.extend(bytes);
        }
    }
    let mut transfer = Compared::opened(random, size);
    transfer.piece(&stream, 2 * stream.len());
    transfer
}
