//! Openings: done and refused, of closed and of open records.

use crate::common::*;
use crate::compare::*;
use crate::fit::is_fit;
use crate::make::*;
use crate::records::noise;
use reference::FpcReply;
use reference::fpc::stream_of;
use windlassow::{Refusal, TransferRecord};

/// Bytes that leave a transfer at a pair's byte, in its first double, in its second, after the odd end, damaged, and with 4,096
/// doubles.
fn places() -> [Vec<u8>; 9] {
    let full = vec![0x77; 2_048];
    [
        vec![],
        vec![0x6e, 0x05, 0x02],
        vec![0x6e],
        vec![0x6e, 0x05, 0x02, 0x00, 0x01, 0x02, 0x03],
        vec![0x6e, 0x05],
        vec![0x65, 0x05, 0x02],
        vec![0x66, 0x05, 0x00],
        vec![0x6e, 0x05, 0x0c],
        full,
    ]
}

/// A transfer that has come to one of these places. Its last value and its hashes are other than 0.
fn at_place(random: &mut Random, size: usize, bytes: &[u8]) -> Compared {
    let mut transfer = Compared::opened(random, size);
    transfer.piece(bytes, 2 * bytes.len());
    transfer
}

/// Opening an open transfer starts anew, also with tables of another length: what comes after is as in a new one.
#[test]
fn an_open_transfer_starts_anew() {
    let mut random = Random::new(241);
    for bytes in places() {
        for size in SIZES {
            for new_size in SIZES {
                let mut transfer = at_place(&mut random, size, &bytes);
                assert_eq!(transfer.open(&mut random, (new_size, new_size)), FpcReply::done(0));
                let run = near_predictions(&mut random, new_size, 9);
                let (stream, _) = stream_of(new_size, &run);
                assert_eq!(transfer.piece(&stream, 2 * stream.len()), FpcReply::done(9));
                assert_eq!((transfer.close(), &transfer.doubles), (FpcReply::done(9), &run));
            }
        }
    }
}

/// The same after runs that leave other hashes and another last value.
#[test]
fn a_transfer_of_any_run_starts_anew() {
    let mut random = Random::new(242);
    let mut transfer = Compared::closed(&mut random);
    for _ in 0..rounds(1000) {
        let size = random.pick(&SIZES);
        transfer.open(&mut random, (size, size));
        // An opened record is the same, whatever it was before.
        let mut other = TransferRecord::default();
        other.open(&mut vec![1; size], &mut vec![2; size]).unwrap();
        assert_eq!(transfer.record(), other);
        let (maker, len) = (random.below(MAKERS), random.below(20));
        let run = run(&mut random, maker, size, len);
        let (stream, _) = stream_of(size, &run);
        let end = random.below(stream.len() + 1);
        assert_eq!(transfer.piece(&stream[..end], 2 * end).answer, 0);
    }
}

/// A record of any numbers opens like one of zeros, and a failed opening makes it one of zeros.
#[test]
fn records_of_any_numbers() {
    let mut random = Random::new(245);
    for _ in 0..rounds(1000) {
        let size = random.pick(&SIZES);
        let (mut any, mut zeros) = (noise(&mut random), TransferRecord::default());
        let (mut f, mut d) = (lent_table(&mut random, size), lent_table(&mut random, size));
        assert_eq!(any.open(&mut f, &mut d[..size / 2]), Err(Refusal::InvalidTables));
        assert_eq!(any, zeros);
        any = noise(&mut random);
        assert_eq!(any.open(&mut f, &mut d), Ok(()));
        assert!(is_fit(&any) && f.iter().chain(&d).all(|&entry| entry == 0), "{any:?}");
        zeros.open(&mut f, &mut d).unwrap();
        assert_eq!(any, zeros);
    }
}

/// Tables of every length, equal and not.
#[test]
fn tables_of_every_length() {
    let mut random = Random::new(243);
    let mut transfer = Compared::closed(&mut random);
    let mut answer = |lens: (usize, usize), is_open: bool| {
        if is_open {
            transfer.open(&mut random, (64, 64));
            transfer.piece(&[0x66, 0x05], 4);
        }
        let given = transfer.open(&mut random, lens);
        let is_good = lens.0 == lens.1 && SIZES.contains(&lens.0);
        assert_eq!(given, FpcReply::refused(if is_good { 0 } else { 20 }), "tables of {lens:?}");
        // A failed opening closes.
        let expected = if is_good { [FpcReply::done(2); 2] } else { [FpcReply::refused(25); 2] };
        assert_eq!([transfer.piece(&[0x77], 2), transfer.close()], expected, "tables of {lens:?}");
    };
    for size in (0..=1100).chain([2047, 2048, 4096]) {
        answer((size, size), size % 2 == 0);
        answer((size, size + 1), true);
        answer((size + 1, size), false);
    }
    for f in SIZES.into_iter().chain([0, 8, 2048]) {
        for d in SIZES.into_iter().chain([0, 8, 2048]) {
            answer((f, d), true);
            answer((f, d), false);
        }
    }
}

/// A failed opening closes the transfer at each of the places, and leaves the tables.
#[test]
fn a_failed_opening_at_every_place() {
    let mut random = Random::new(244);
    for bytes in places() {
        for lens in [(0, 0), (8, 8), (15, 15), (64, 32), (16, 64), (0, 64), (64, 0), (2048, 2048), (96, 96)] {
            let mut transfer = at_place(&mut random, 64, &bytes);
            assert_eq!(transfer.open(&mut random, lens), FpcReply::refused(20));
            assert_eq!(transfer.piece(&[], 0), FpcReply::refused(25));
            assert_eq!(transfer.piece_with(&mut random, (64, 64), &[0x77], 2), FpcReply::refused(25));
            assert_eq!(transfer.close(), FpcReply::refused(25));
        }
    }
}

/// An opening has the count 0, done or refused, also of a record that has given doubles: the interface sees to it.
#[test]
fn the_count_of_an_opening() {
    for (f_len, d_len, is_good) in [(16, 16, true), (1024, 1024, true), (16, 32, false), (17, 17, false)] {
        for given in [0, 2, 4_096] {
            let mut record = TransferRecord { state: 1, given, size: 16, ..Default::default() };
            let opened = record.open(&mut vec![1; f_len], &mut vec![2; d_len]);
            let expected = if is_good { Ok(()) } else { Err(Refusal::InvalidTables) };
            assert_eq!(opened, expected, "tables of {f_len} and {d_len}");
        }
    }
}
