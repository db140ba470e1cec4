//! FPC streams: refusals, round trips, damage.

mod common;
use common::*;
use reference::{FpcReply, fpc, fpc_read, fpc_write};

const SIZES: [usize; 7] = [16, 32, 64, 128, 256, 512, 1024];

fn runs(random: &mut Random, len: usize) -> Vec<Vec<u64>> {
    let smooth = (0..len).map(|k| (20.0 + (k as f64 / 10.0).sin()).to_bits()).collect();
    let constant = vec![random.bits(); len];
    let noise = (0..len).map(|_| random.bits()).collect();
    let shifted = (0..len).map(|_| random.bits() >> random.below(64)).collect();
    vec![smooth, constant, noise, shifted]
}

#[test]
fn row_20_tables() {
    for (f, d) in [(0, 0), (1, 1), (8, 8), (15, 15), (17, 17), (48, 48), (2048, 2048), (16, 32), (1024, 16)] {
        let (mut f, mut d) = (vec![3; f], vec![4; d]);
        let mut out = [5; 4];
        let mut doubles = [6; 4];
        assert_eq!(fpc_write(&mut f, &mut d, &[0; 5000], &mut out), fpc_refused(20));
        assert_eq!(fpc_read(&mut f, &mut d, &[0; 70_000], &mut doubles), fpc_refused(20));
        assert!(f.iter().all(|&v| v == 3) && d.iter().all(|&v| v == 4));
        assert_eq!((out, doubles), ([5; 4], [6; 4]));
    }
}

#[test]
fn row_21_long_input() {
    let (mut f, mut d) = ([3; 16], [4; 16]);
    assert_eq!(fpc_write(&mut f, &mut d, &[0; 4097], &mut []), fpc_refused(21));
    assert_eq!(fpc_read(&mut f, &mut d, &[0; 65_537], &mut []), fpc_refused(21));
    assert_eq!((f, d), ([3; 16], [4; 16]));
    assert_eq!(fpc_read(&mut f, &mut d, &[0x77; 65_536], &mut []), fpc_refused(23));
    assert_eq!((f, d), ([0; 16], [0; 16]));
}

#[test]
fn row_22_short_room() {
    let (mut f, mut d) = ([3; 16], [4; 16]);
    let mut out = [5; 15];
    let one = 0x3FF0_0000_0000_0000;
    assert_eq!(fpc_write(&mut f, &mut d, &[one], &mut out[..9]), FpcReply { answer: 22, count: 10 });
    assert_eq!((f, d, out), ([0; 16], [0; 16], [5; 15]));
    (f, d) = ([3; 16], [4; 16]);
    let mut doubles = [6; 1];
    assert_eq!(fpc_read(&mut f, &mut d, &[0x77], &mut doubles), FpcReply { answer: 22, count: 2 });
    assert_eq!((f, d, doubles), ([0; 16], [0; 16], [6]));
    // 23 comes before 22.
    assert_eq!(fpc_read(&mut f, &mut d, &[0x77, 0x07], &mut doubles), fpc_refused(23));
}

#[test]
fn row_23_too_many_doubles() {
    let (mut f, mut d) = ([3; 16], [4; 16]);
    let mut doubles = vec![6; 5000];
    assert_eq!(fpc_read(&mut f, &mut d, &[0x77; 2048], &mut doubles), fpc_done(4096));
    assert_eq!(fpc_read(&mut f, &mut d, &[0x77; 2049], &mut doubles), fpc_refused(23));
    let mut odd = vec![0x77; 2048];
    odd.extend([0x76, 0x00]);
    assert_eq!(fpc_read(&mut f, &mut d, &odd, &mut doubles), fpc_refused(23));
}

#[test]
fn row_23_the_side_on_a_tie() {
    // Both predict 0 for the first double, so the dfcm side is not taken.
    let (mut f, mut d) = ([0; 16], [0; 16]);
    let mut doubles = [0; 2];
    assert_eq!(fpc_read(&mut f, &mut d, &[0x77], &mut doubles), fpc_done(2));
    for stream in [[0xF7], [0x7F], [0xFF]] {
        assert_eq!(fpc_read(&mut f, &mut d, &stream, &mut doubles), fpc_refused(23));
    }
}

#[test]
fn row_23_leading_zero_bytes() {
    let (mut f, mut d) = ([0; 16], [0; 16]);
    let mut doubles = [0; 2];
    // Four leading zero bytes are written as three, the fourth as a byte.
    assert_eq!(fpc_read(&mut f, &mut d, &[0x36, 1, 2, 3, 4, 0, 0], &mut doubles), fpc_done(1));
    assert_eq!(doubles[0], 0x0403_0201);
    // Five written as three or a seven written as six are no stream.
    assert_eq!(fpc_read(&mut f, &mut d, &[0x36, 1, 2, 3, 0, 0, 0], &mut doubles), fpc_refused(23));
    assert_eq!(fpc_read(&mut f, &mut d, &[0x56, 1, 0, 0], &mut doubles), fpc_refused(23));
    // The odd end is in the second place and at the end only.
    assert_eq!(fpc_read(&mut f, &mut d, &[0x67, 0], &mut doubles), fpc_refused(23));
    assert_eq!(fpc_read(&mut f, &mut d, &[0x76, 0, 0x77], &mut doubles), fpc_refused(23));
    assert_eq!(fpc_read(&mut f, &mut d, &[0x76], &mut doubles), fpc_refused(23));
    // With another byte than 00 it is a double.
    assert_eq!(fpc_read(&mut f, &mut d, &[0x76, 1], &mut doubles), fpc_done(2));
    assert_eq!(doubles, [0, 1]);
}

#[test]
fn runs_come_back_with_the_same_tables() {
    let mut random = Random::new(31);
    for size in SIZES {
        for len in [0, 1, 2, 3, 4, 5, 100, 101, 4095, 4096] {
            for run in runs(&mut random, len) {
                let (mut f, mut d) = (vec![7; size], vec![8; size]);
                let mut out = vec![0xEE; 9 * len + 3];
                let reply = fpc_write(&mut f, &mut d, &run, &mut out);
                assert_eq!(reply.answer, 0);
                let end = reply.count as usize;
                assert!(end <= 17 * len.div_ceil(2));
                assert_eq!(out[end..], vec![0xEE; out.len() - end]);
                let (mut f2, mut d2) = (vec![1; size], vec![2; size]);
                let mut back = vec![99; len + 2];
                assert_eq!(fpc_read(&mut f2, &mut d2, &out[..end], &mut back), fpc_done(len as u32));
                assert_eq!(back[..len], run[..]);
                assert_eq!(back[len..], [99, 99]);
                assert_eq!((f, d), (f2, d2));
            }
        }
    }
}

#[test]
fn an_accepted_stream_is_the_writers() {
    let mut random = Random::new(47);
    let mut accepted = 0;
    for _ in 0..20_000 {
        let len = random.below(12);
        let stream: Vec<u8> = (0..len)
            .map(|_| {
                if random.below(3) == 0 {
                    random.bits() as u8
                } else {
                    [0x77, 0x76, 0, 0x7F][random.below(4)]
                }
            })
            .collect();
        if let Some((run, _)) = fpc::run_of(16, &stream) {
            accepted += 1;
            assert_eq!(fpc::stream_of(16, &run).0, stream);
        }
    }
    assert!(accepted > 100);
}
