//! Streams and tables worked out by hand from document 01, on the library alone.

use windlassow::{fpc_read, fpc_write};

/// A table in which all entries are 0 but these.
fn table(size: usize, entries: &[(usize, u64)]) -> Vec<u64> {
    let mut table = vec![0; size];
    entries.iter().for_each(|&(place, value)| table[place] = value);
    table
}

/// The run has this stream and leaves these tables; the stream reads as the run and leaves them too.
fn is_stream(size: usize, run: &[u64], stream: &[u8], f: &[(usize, u64)], d: &[(usize, u64)]) {
    let (f, d) = (table(size, f), table(size, d));
    let (mut written_f, mut written_d) = (vec![7; size], vec![8; size]);
    let mut out = vec![0xEE; stream.len() + 3];
    assert_eq!(fpc_write(&mut written_f, &mut written_d, run, &mut out), Ok(stream.len()));
    assert_eq!(out, [stream, &[0xEE; 3]].concat());
    assert_eq!((&written_f, &written_d), (&f, &d), "tables after writing {run:x?}");
    let (mut read_f, mut read_d) = (vec![9; size], vec![10; size]);
    let mut doubles = vec![11; run.len() + 2];
    assert_eq!(fpc_read(&mut read_f, &mut read_d, stream, &mut doubles), Ok(run.len()));
    assert_eq!(doubles, [run, &[11; 2]].concat());
    assert_eq!((&read_f, &read_d), (&f, &d), "tables after reading {stream:x?}");
}

/// Both predictions of 5 are 0. Of 8, fcm's is 5 and dfcm's 5 + 5: 8 xor 10 is the smaller. Both tables change each time.
#[test]
fn the_dfcm_side_is_taken_if_its_xor_is_smaller() {
    is_stream(16, &[5, 8], &[0x6e, 0x05, 0x02], &[(0, 8)], &[(0, 3)]);
}

/// Both predictions of the third 7 are 7. It is on the fcm side, and the odd end changes no table.
#[test]
fn a_tie_takes_the_fcm_side() {
    is_stream(16, &[7, 7, 7], &[0x67, 0x07, 0x76, 0x00], &[(0, 7)], &[(0, 0)]);
}

/// The patterns of 100.0, 101.0 and 101.0: after the first two h is 9. F[9] predicts the third exactly and F[0] does not;
/// dfcm expects 102.0.
#[test]
fn fcm_predicts_from_the_place_of_its_hash() {
    let (v, w) = (0x4059_0000_0000_0000, 0x4059_4000_0000_0000);
    let stream = [&[0x00, 0, 0, 0, 0, 0, 0, 0x59, 0x40][..], &[0, 0, 0, 0, 0, 0x40, 0x59, 0x40, 0x76, 0x00]];
    is_stream(16, &[v, w, w], &stream.concat(), &[(0, v), (9, w)], &[]);
}

/// The numbers of leading zero bytes 0 to 7 of a first double, whose xor is the double itself. Four is written as three.
#[test]
fn every_count_of_leading_zero_bytes() {
    let codes = [0, 1, 2, 3, 3, 4, 5, 6];
    let bytes = [8, 7, 6, 5, 5, 3, 2, 1];
    for zeros in 0..8 {
        let v = 0x8877_6655_4433_2211u64 >> (8 * zeros);
        let rest = &v.to_le_bytes()[..bytes[zeros]];
        let stream = [&[codes[zeros] << 4 | 6], rest, &[0]].concat();
        is_stream(1024, &[v], &stream, &[(0, v)], &[(0, v)]);
    }
    is_stream(1024, &[0], &[0x76, 0x00], &[], &[]);
}

/// The top parts v / 2^48 of the values are 1, 2 and 3, the parts t / 2^40 of the differences 257, 258 and 259. So h is 0,
/// 1 and 64 xor 2; g is 0, 257 and (4 x 257 xor 258) mod 1,024 = 4 xor 258.
#[test]
fn both_hashes() {
    let t = [257 << 40, 258 << 40, 259 << 40];
    let v = [t[0], t[0] + t[1], t[0] + t[1] + t[2]];
    assert_eq!(v.map(|v: u64| v >> 48), [1, 2, 3]);
    // No entry is used twice, so fcm predicts 0 and dfcm the last value.
    let xors = [v[0], v[1] ^ v[0], v[2] ^ v[1]];
    assert_eq!(xors.map(|xor: u64| xor.leading_zeros() / 8), [1, 1, 1]);
    let bytes = |xor: u64| xor.to_le_bytes()[..7].to_vec();
    // Of the top parts 2 xor 1 is above 2, and 3 xor 2 is below 3: only the third is on the dfcm side.
    assert_eq!([v[1] ^ v[0] < v[1], v[2] ^ v[1] < v[2]], [false, true]);
    let stream = [&[0x11][..], &bytes(v[0]), &bytes(v[1]), &[0x96], &bytes(xors[2]), &[0]].concat();
    is_stream(1024, &v, &stream, &[(0, v[0]), (1, v[1]), (66, v[2])], &[(0, t[0]), (257, t[1]), (262, t[2])]);
}

/// The patterns of 100.0 to 103.0: v / 2^48 is 0x4059, which is 9 modulo 16, and so is 64 x 9 xor 0x4059. From the third on
/// the differences are equal, and dfcm is right.
#[test]
fn a_hash_is_taken_modulo_the_size() {
    let v = [100.0f64, 101.0, 102.0, 103.0].map(f64::to_bits);
    assert_eq!(v[..2], [0x4059_0000_0000_0000, 0x4059_4000_0000_0000]);
    let stream =
        [&[0x00, 0, 0, 0, 0, 0, 0, 0x59, 0x40][..], &[0, 0, 0, 0, 0, 0x40, 0x59, 0x40], &[0xff]].concat();
    is_stream(16, &v, &stream, &[(0, v[0]), (9, v[3])], &[(0, 0x0000_4000_0000_0000)]);
}
