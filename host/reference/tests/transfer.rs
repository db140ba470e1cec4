//! Streams that come in pieces: worked cases, refusals, and every cut against the reader of whole streams.

mod common;
use common::*;
use reference::fpc::stream_of;
use reference::{FpcReply, Transfer, fpc_read, transfer_close, transfer_open, transfer_piece};
use testing::cut_at;

const ONE: u64 = 0x3FF0_0000_0000_0000;

fn opened(size: usize) -> (Transfer, Vec<u64>, Vec<u64>) {
    let (mut transfer, mut f, mut d) = (Transfer::default(), vec![7; size], vec![8; size]);
    assert_eq!(transfer_open(&mut transfer, &mut f, &mut d), fpc_done(0));
    assert_eq!((&f, &d), (&vec![0; size], &vec![0; size]));
    (transfer, f, d)
}

/// What came of a transfer: the answer of each piece with its doubles, that of the close, and the tables.
struct Outcome {
    pieces: Vec<(u32, Vec<u64>)>,
    close: FpcReply,
    f: Vec<u64>,
    d: Vec<u64>,
}

impl Outcome {
    fn doubles(&self) -> Vec<u64> {
        self.pieces.iter().flat_map(|piece| piece.1.clone()).collect()
    }
}

/// A transfer with just enough room for each piece. Room past the doubles given stays as it was.
fn transferred<'a>(size: usize, pieces: impl IntoIterator<Item = &'a [u8]>) -> Outcome {
    let (mut transfer, mut f, mut d) = opened(size);
    let mut taken = Vec::new();
    for piece in pieces {
        let mut doubles = vec![99; 2 * piece.len()];
        let reply = transfer_piece(&mut transfer, &mut f, &mut d, piece, &mut doubles);
        assert!(doubles[reply.count as usize..].iter().all(|&v| v == 99));
        taken.push((reply.answer, doubles[..reply.count as usize].to_vec()));
    }
    let close = transfer_close(&mut transfer);
    assert_eq!(transfer, Transfer::default());
    Outcome { pieces: taken, close, f, d }
}

/// The pieces of one byte each.
fn bytes_of_stream(stream: &[u8]) -> impl Iterator<Item = &[u8]> {
    stream.chunks(1)
}

#[test]
fn the_cases_of_document_01() {
    let nothing: [&[u8]; 0] = [];
    assert_eq!(transferred(16, nothing).close, fpc_done(0));
    assert_eq!(transferred(16, [&[][..], &[]]).close, fpc_done(0));
    let zero = transferred(16, [&[0x76][..], &[], &[0x00]]);
    assert_eq!(zero.pieces, [(0, vec![0]), (0, vec![]), (0, vec![])]);
    assert_eq!(zero.close, fpc_done(1));
    let twice = transferred(16, [&[0x77][..]]);
    assert_eq!((twice.pieces, twice.close), (vec![(0, vec![0, 0])], fpc_done(2)));
    // The ninth byte makes both known.
    let ones = transferred(16, bytes_of_stream(&[0x07, 0, 0, 0, 0, 0, 0, 0xf0, 0x3f]));
    assert!(ones.pieces[..8].iter().all(|piece| *piece == (0, vec![])));
    assert_eq!((&ones.pieces[8], ones.close), (&(0, vec![ONE, ONE]), fpc_done(2)));
    // 66 00: the rules code 0 with half byte 7.
    let bad = transferred(16, bytes_of_stream(&[0x66, 0, 0]));
    assert_eq!(bad.pieces, [(0, vec![]), (23, vec![]), (23, vec![])]);
    assert_eq!(bad.close, fpc_refused(23));
}

/// 5, then half byte 6 and byte 00: the odd end, and any byte after it is damage.
#[test]
fn the_odd_end() {
    let odd = transferred(16, [&[0x66, 0x05][..], &[0x00], &[]]);
    assert_eq!(odd.pieces, [(0, vec![5]), (0, vec![]), (0, vec![])]);
    assert_eq!(odd.close, fpc_done(1));
    for after in [0x00, 0x77, 0xff] {
        let more = transferred(16, [&[0x66, 0x05, 0x00][..], &[after], &[]]);
        assert_eq!(more.pieces, [(0, vec![5]), (23, vec![]), (23, vec![])]);
        assert_eq!(more.close, fpc_refused(23));
        assert_eq!((more.f[0], more.d[0]), (5, 5));
        let whole = transferred(16, [&[0x66, 0x05, 0x00, after][..]]);
        assert_eq!((whole.pieces, whole.close), (vec![(23, vec![5])], fpc_refused(23)));
    }
    // In the first place, or on the dfcm side, it is a double that the rules code with 7.
    assert_eq!(transferred(16, [&[0x67, 0x00][..]]).pieces, [(23, vec![])]);
    assert_eq!(transferred(16, [&[0x6e, 0x05, 0x00][..]]).pieces, [(23, vec![5])]);
}

/// The first double of a run has no dfcm side, since both predict 0: damage, once its bytes are complete.
#[test]
fn damage_is_a_complete_double() {
    let bytes = [8, 7, 6, 5, 3, 2, 1, 0];
    for (code, len) in bytes.into_iter().enumerate() {
        let stream = [&[0x80 | (code as u8) << 4 | 7][..], &vec![0xA5; len]].concat();
        let outcome = transferred(16, bytes_of_stream(&stream));
        let (last, before) = outcome.pieces.split_last().unwrap();
        assert!(before.iter().all(|piece| *piece == (0, vec![])), "half byte {}", 8 + code);
        assert_eq!((last, outcome.close), (&(23, vec![]), fpc_refused(23)));
    }
    // The side on a tie, in the second place.
    assert_eq!(transferred(16, [&[0x7f][..]]).pieces, [(23, vec![0])]);
}

#[test]
fn bytes_after_4096_doubles() {
    let zeros = [0x77; 2048];
    let full = transferred(16, [&zeros[..], &[]]);
    assert_eq!((full.pieces[0].1.len(), full.pieces[1].0, full.close), (4096, 0, fpc_done(4096)));
    for more in [0x00, 0x76, 0x77] {
        let outcome = transferred(16, [&zeros[..], &[more]]);
        assert_eq!((&outcome.pieces[1], outcome.close), (&(23, vec![]), fpc_refused(23)));
    }
    let one_piece = transferred(16, [&[0x77; 65_536][..]]);
    assert_eq!((one_piece.pieces[0].0, one_piece.pieces[0].1.len()), (23, 4096));
    // 4,095 doubles and an odd end.
    let odd = [&zeros[..2047], &[0x76, 0x00]].concat();
    assert_eq!(transferred(16, bytes_of_stream(&odd)).close, fpc_done(4095));
}

#[test]
fn openings() {
    for (f, d) in [(0, 0), (8, 8), (15, 15), (48, 48), (2048, 2048), (16, 32), (1024, 16), (16, 0)] {
        let (mut transfer, ..) = opened(16);
        let (mut f, mut d) = (vec![3; f], vec![4; d]);
        assert_eq!(transfer_open(&mut transfer, &mut f, &mut d), fpc_refused(20));
        assert!(f.iter().all(|&v| v == 3) && d.iter().all(|&v| v == 4));
        let (mut f, mut d) = ([3; 16], [4; 16]);
        assert_eq!(transfer_piece(&mut transfer, &mut f, &mut d, &[], &mut []), fpc_refused(25));
        assert_eq!(transfer_close(&mut transfer), fpc_refused(25));
        assert_eq!((f, d), ([3; 16], [4; 16]));
    }
    // An open one starts anew.
    let (mut transfer, mut f, mut d) = opened(16);
    assert_eq!(transfer_piece(&mut transfer, &mut f, &mut d, &[0x66, 0x05], &mut [0; 4]), fpc_done(1));
    assert_eq!((f[0], d[0]), (5, 5));
    assert_eq!(transfer_open(&mut transfer, &mut f, &mut d), fpc_done(0));
    assert_eq!((&f, &d), (&vec![0; 16], &vec![0; 16]));
    assert_eq!(transfer_close(&mut transfer), fpc_done(0));
}

/// Each refused piece leaves everything as it was.
#[test]
fn refusals_of_a_piece() {
    let (mut transfer, mut f, mut d) = opened(16);
    let mut doubles = vec![9; 140_000];
    assert_eq!(transfer_piece(&mut transfer, &mut f, &mut d, &[0x66, 0x05], &mut doubles), fpc_done(1));
    let before = (transfer.clone(), f.clone(), d.clone(), doubles.clone());
    let (mut f32, mut d32) = (vec![3; 32], vec![4; 32]);
    let long = vec![0x77; 65_537];
    assert_eq!(transfer_piece(&mut transfer, &mut f32, &mut d32, &long, &mut []), fpc_refused(20));
    assert_eq!(transfer_piece(&mut transfer, &mut f32, &mut d, &[], &mut doubles), fpc_refused(20));
    assert_eq!(transfer_piece(&mut transfer, &mut f, &mut d, &long, &mut []), fpc_refused(21));
    let short = transfer_piece(&mut transfer, &mut f, &mut d, &[0x00, 0x77], &mut doubles[..3]);
    assert_eq!(short, FpcReply { answer: 22, count: 4 });
    assert_eq!((&transfer, &f, &d, &doubles), (&before.0, &before.1, &before.2, &before.3));
    assert_eq!((f32, d32), (vec![3; 32], vec![4; 32]));
    // Damage, and then the order of the rest.
    assert_eq!(transfer_piece(&mut transfer, &mut f, &mut d, &[0x00, 0x77], &mut doubles), fpc_refused(23));
    assert_eq!(transfer_piece(&mut transfer, &mut f, &mut d, &[0x77], &mut []), fpc_refused(23));
    assert_eq!(transfer_piece(&mut transfer, &mut f, &mut d, &long, &mut []), fpc_refused(21));
    assert_eq!(transfer_piece(&mut transfer, &mut [], &mut d, &long, &mut []), fpc_refused(20));
    assert_eq!(transfer_close(&mut transfer), fpc_refused(23));
    assert_eq!(transfer_piece(&mut transfer, &mut [], &mut d, &long, &mut []), fpc_refused(25));
    assert_eq!(transfer_close(&mut transfer), fpc_refused(25));
    assert_eq!((&f, &d), (&before.1, &before.2));
}

/// The outcome agrees with the reader of whole streams.
fn agrees(size: usize, stream: &[u8], outcome: &Outcome) -> bool {
    let (mut f, mut d, mut doubles) = (vec![1; size], vec![2; size], vec![3; 4096]);
    let reply = fpc_read(&mut f, &mut d, stream, &mut doubles);
    if reply.answer == 0 {
        doubles.truncate(reply.count as usize);
        assert_eq!((outcome.close, outcome.doubles()), (reply, doubles), "{stream:x?}");
        assert_eq!((&outcome.f, &outcome.d), (&f, &d), "{stream:x?}");
    } else {
        assert_eq!(outcome.close, fpc_refused(23), "{stream:x?}");
    }
    reply.answer == 0
}

/// Short streams, good and damaged, cut in every way: the doubles, the damage and the tables are the same.
#[test]
fn every_cut() {
    let mut random = Random::new(48);
    let (mut accepted, mut damaged) = (0, 0);
    for _ in 0..400 {
        let run: Vec<u64> =
            (0..random.below(5)).map(|_| random.bits() >> random.pick(&[40, 48, 60])).collect();
        let (mut stream, _) = stream_of(16, &run);
        if random.once_in(2) {
            stream.extend(random.bytes(1));
        } else if random.once_in(2) && !stream.is_empty() {
            let at = random.below(stream.len());
            stream[at] ^= 1 << random.below(8);
        }
        stream.truncate(9);
        let whole = transferred(16, [&stream[..]]);
        accepted += usize::from(agrees(16, &stream, &whole));
        damaged += usize::from(whole.pieces[0].0 == 23);
        for places in 0..1 << stream.len().saturating_sub(1) {
            let outcome = transferred(16, cut_at(&stream, places));
            agrees(16, &stream, &outcome);
            assert_eq!(outcome.doubles(), whole.doubles(), "{stream:x?} cut at {places:b}");
            assert_eq!((&outcome.f, &outcome.d), (&whole.f, &whole.d), "{stream:x?} cut at {places:b}");
        }
    }
    assert!(accepted > 100 && damaged > 30, "{accepted} accepted, {damaged} damaged");
}

/// Longer runs in pieces of any length.
#[test]
fn longer_runs() {
    let mut random = Random::new(49);
    for size in [16, 64, 1024] {
        for len in [50, 51, 1000, 4096] {
            let run: Vec<u64> = (0..len).map(|_| random.bits() >> random.below(64)).collect();
            let (stream, _) = stream_of(size, &run);
            let pieces = stream.chunks(1 + random.below(stream.len() / 4));
            let outcome = transferred(size, pieces);
            assert!(agrees(size, &stream, &outcome));
            assert_eq!(outcome.doubles(), run);
        }
    }
}
