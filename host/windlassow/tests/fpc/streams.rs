//! Streams that no writer has written.

use crate::common::*;
use crate::compare::*;
use crate::make::*;
use reference::fpc::stream_of;

#[test]
fn streams_cut_at_every_length() {
    let mut random = Random::new(107);
    let mut answers = Answers::none();
    for _ in 0..rounds(40) {
        let size = random.pick(&SIZES);
        let (maker, len) = (random.below(MAKERS), random.below(40));
        let run = run(&mut random, maker, size, len);
        let (mut stream, _) = stream_of(size, &run);
        // Also longer than it was.
        stream.extend([random.pick(&[0x00, 0x66, 0x76, 0x77, 0x7F]), 0, random.byte()]);
        for end in 0..=stream.len() {
            let room = if random.once_in(4) { random.below(len + 1) } else { len + 3 };
            answers.count(compare_read(&mut random, (size, size), &stream[..end], room).0.answer);
        }
    }
    answers.must_include(&[0, 22, 23]);
}

#[test]
fn streams_damaged_at_every_byte() {
    let mut random = Random::new(108);
    let mut answers = Answers::none();
    for _ in 0..rounds(30) {
        let size = random.pick(&SIZES);
        let (maker, len) = (random.below(MAKERS), random.below(20));
        let run = run(&mut random, maker, size, len);
        let (stream, _) = stream_of(size, &run);
        for at in 0..stream.len() {
            let flips = (0..8).map(|k| 1 << k).chain([0x80 | 0x08, 0x77, random.byte() | 1]);
            for flip in flips {
                let mut damaged = stream.clone();
                damaged[at] ^= flip;
                answers.count(compare_read(&mut random, (size, size), &damaged, 2 * len + 4).0.answer);
            }
        }
    }
    answers.must_include(&[0, 23]);
}

/// All streams of one byte and of two bytes, and of three bytes that begin like a short stream.
#[test]
fn all_short_streams() {
    let mut random = Random::new(109);
    let mut answers = Answers::none();
    for first in 0..=255 {
        answers.count(compare_read(&mut random, (16, 16), &[first], 4).0.answer);
        for second in 0..=255 {
            answers.count(compare_read(&mut random, (16, 16), &[first, second], 4).0.answer);
        }
    }
    for first in [0x66, 0x67, 0x76, 0x77, 0x57, 0x75, 0x6E, 0xE6, 0x56] {
        for second in 0..=255 {
            for third in [0, 1, 0x66, 0x67, 0x76, 0x77, 0x7F, 0xF7] {
                answers.count(compare_read(&mut random, (16, 16), &[first, second, third], 6).0.answer);
            }
        }
    }
    answers.must_include(&[0, 23]);
}

/// Streams in the writer's form whose sides or codes the writer would not have chosen.
#[test]
fn streams_that_a_looser_reader_would_take() {
    let mut random = Random::new(110);
    let mut answers = Answers::none();
    for _ in 0..rounds(6000) {
        let size = random.pick(&SIZES);
        let len = 1 + random.below(12);
        let stream = loose_stream(&mut random, size, len);
        answers.count(compare_read(&mut random, (size, size), &stream, len + 2).0.answer);
    }
    answers.must_include(&[0, 23]);
}

/// Streams of more than 4,096 doubles.
#[test]
fn streams_of_too_many_doubles() {
    let mut random = Random::new(111);
    for size in SIZES {
        for maker in 0..MAKERS {
            for (len, answer) in [(4095, 0), (4096, 0), (4097, 23), (4098, 23), (4099, 23)] {
                let run = run(&mut random, maker, size, len);
                let (stream, _) = stream_of(size, &run);
                let (given, _) = compare_read(&mut random, (size, size), &stream, 4200);
                assert_eq!(given.answer, answer);
            }
        }
        // As many doubles as 65,536 bytes can hold.
        assert_eq!(compare_read(&mut random, (size, size), &[0x77; 65_536], 10).0.answer, 23);
    }
}

#[test]
fn random_bytes() {
    let mut random = Random::new(112);
    for _ in 0..rounds(4000) {
        let size = random.pick(&SIZES);
        let len = random.below(60);
        let stream = random.bytes(len);
        compare_read(&mut random, (size, size), &stream, 130);
    }
}

/// A stream is read with the table size that it was written with. Other sizes give what the rules give.
#[test]
fn another_table_size() {
    let mut random = Random::new(113);
    for _ in 0..rounds(200) {
        let (written, read) = (random.pick(&SIZES), random.pick(&SIZES));
        let (maker, len) = (random.below(MAKERS), random.below(60));
        let run = run(&mut random, maker, written, len);
        let (stream, _) = stream_of(written, &run);
        compare_read(&mut random, (read, read), &stream, len + 70);
    }
}
