//! Good streams, cut in every way.

use crate::common::*;
use crate::compare::*;
use crate::make::*;
use reference::FpcReply;
use reference::fpc::{Predictors, stream_of};
use testing::cut_at;

/// The pieces of a stream that is cut at any places, about so many of them. Some are empty.
pub fn any_cut<'a>(random: &mut Random, stream: &'a [u8], count: usize) -> Vec<&'a [u8]> {
    let mut places: Vec<usize> = (0..count).map(|_| random.below(stream.len() + 1)).collect();
    places.extend([0, stream.len()]);
    places.sort_unstable();
    places.windows(2).map(|ends| &stream[ends[0]..ends[1]]).collect()
}

/// Sends the pieces, each with just enough room or some more, and now and then a piece that is refused. Closes; gives the reply.
pub fn send(random: &mut Random, size: usize, pieces: &[&[u8]], is_disturbed: bool) -> (Compared, FpcReply) {
    let mut transfer = Compared::opened(random, size);
    for piece in pieces {
        if is_disturbed && random.once_in(3) {
            transfer.refused_piece(random);
        }
        let more = random.pick(&[0, 0, 1, 7]);
        transfer.piece(piece, 2 * piece.len() + more);
    }
    let close = transfer.close();
    (transfer, close)
}

/// Sends the stream of a run, in pieces. It is a whole one and gives the run.
fn send_run(random: &mut Random, size: usize, run: &[u64], pieces: &[&[u8]], is_disturbed: bool) {
    let (transfer, close) = send(random, size, pieces, is_disturbed);
    assert_eq!(close, FpcReply::done(run.len()), "{} in {} pieces", shown(&transfer.bytes), pieces.len());
    assert!(transfer.doubles == run, "{} in {} pieces", shown(&transfer.bytes), pieces.len());
}

/// Runs whose streams are short: near the predictions, or with many leading zeros.
pub fn short_run(random: &mut Random, size: usize) -> Vec<u64> {
    let len = random.below(6);
    match random.below(3) {
        0 => (0..len).map(|_| random.bits() >> random.pick(&[40, 48, 56, 60])).collect(),
        1 => vec![random.bits() >> random.pick(&[0, 40, 63]); len],
        _ => {
            let mut predictors = Predictors::new(size);
            (0..len)
                .map(|_| {
                    let side = if random.once_in(2) { predictors.fcm() } else { predictors.dfcm() };
                    let v = side ^ random.bits() >> random.pick(&[48, 56, 63]);
                    predictors.update(v);
                    v
                })
                .collect()
        }
    }
}

/// Streams of at most ten bytes in all their cuts, also with empty pieces everywhere: the doubles are those of the run.
#[test]
fn every_cut_of_short_streams() {
    let mut random = Random::new(201);
    let mut lens_seen = [0; 11];
    for _ in 0..rounds(120) {
        let size = random.pick(&[16, 16, 64, 1024]);
        let run = short_run(&mut random, size);
        let (stream, _) = stream_of(size, &run);
        if stream.len() > 10 {
            continue;
        }
        lens_seen[stream.len()] += 1;
        for places in 0..1 << stream.len().saturating_sub(1) {
            let mut pieces = cut_at(&stream, places);
            if random.once_in(2) {
                pieces = pieces.into_iter().flat_map(|piece| [&[], piece]).chain([&[][..]]).collect();
            }
            send_run(&mut random, size, &run, &pieces, false);
        }
    }
    assert!(!lens_seen.contains(&0), "streams of each length: {lens_seen:?}");
}

/// In pieces of any lengths, with refused pieces in between.
#[test]
fn any_cut_of_any_run() {
    let mut random = Random::new(202);
    for size in SIZES {
        for maker in 0..MAKERS {
            for _ in 0..rounds(10) {
                let len = random.below(120);
                let run = run(&mut random, maker, size, len);
                let (stream, _) = stream_of(size, &run);
                let count = random.pick(&[0, 1, 4, 20]);
                let pieces = any_cut(&mut random, &stream, count);
                send_run(&mut random, size, &run, &pieces, true);
            }
        }
    }
}

/// A run of 4,096 doubles of which each takes all eight bytes.
pub fn longest_stream(random: &mut Random, size: usize) -> (Vec<u64>, Vec<u8>) {
    let mut predictors = Predictors::new(size);
    let run: Vec<u64> = (0..4_096)
        .map(|_| {
            let all = loop {
                let v = random.bits();
                if predictors.code(v).1.len() == 8 {
                    break v;
                }
            };
            predictors.update(all);
            all
        })
        .collect();
    let (stream, _) = stream_of(size, &run);
    assert_eq!(stream.len(), 34_816);
    (run, stream)
}

/// Up to 4,096 doubles, in one piece or in a few, and the longest streams.
#[test]
fn long_runs() {
    let mut random = Random::new(203);
    for round in 0..rounds(3) {
        for size in SIZES {
            let maker = random.below(MAKERS);
            let len = random.pick(&[4_096, 4_095, 4_094, 3_001, 1_000]);
            let run = run(&mut random, maker, size, len);
            let (stream, _) = stream_of(size, &run);
            for count in [0, random.pick(&[1, 3, 12])] {
                let pieces = any_cut(&mut random, &stream, count);
                send_run(&mut random, size, &run, &pieces, round > 0);
            }
        }
    }
    for size in [16, 1024] {
        let (run, stream) = longest_stream(&mut random, size);
        for count in [0, 8] {
            let pieces = any_cut(&mut random, &stream, count);
            send_run(&mut random, size, &run, &pieces, true);
        }
    }
}

/// A close at every place of a stream: it is done where the stream of a shorter run ends, and at no other place.
#[test]
fn closes_at_every_place() {
    let mut random = Random::new(204);
    let mut answers = Answers::none();
    for _ in 0..rounds(60) {
        let size = random.pick(&SIZES);
        let (maker, len) = (random.below(MAKERS), random.below(24));
        let run = run(&mut random, maker, size, len);
        let (stream, _) = stream_of(size, &run);
        let ends: Vec<usize> = (0..=len).step_by(2).map(|len| stream_of(size, &run[..len]).0.len()).collect();
        for place in 0..=stream.len() {
            let count = random.below(4);
            let pieces = any_cut(&mut random, &stream[..place], count);
            let mut transfer = Compared::opened(&mut random, size);
            for piece in pieces {
                transfer.piece(piece, 2 * piece.len());
            }
            let is_whole = ends.contains(&place) || place == stream.len();
            let reply = transfer.close();
            assert_eq!(reply.answer, if is_whole { 0 } else { 23 }, "{} of {place}", shown(&stream));
            assert_eq!(reply.count as usize, if is_whole { transfer.doubles.len() } else { 0 });
            answers.count(reply.answer);
        }
    }
    answers.must_include(&[0, 23]);
}
