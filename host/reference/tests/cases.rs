//! Document 01's table of cases, P1 to P12, and its worked listing as document 02 has it.

mod common;
use common::*;
use reference::{bit_count, fpc_read, fpc_write, listing, planes, read, words};

const P3: [u32; 4] = [0xaaaaaaab, 0x55555556, 0xaaaaaaac, 0x55555558];

#[test]
fn p1_integer_zeros() {
    let (reply, slot) = stored(&params(INTEGERS, 1, EXACT, 32, 0x30), &[0; 4]);
    assert_eq!(reply, done(6, 1));
    starts_with(&slot, "000000");
}

#[test]
fn p2_integer_ones() {
    let p = params(INTEGERS, 1, EXACT, 32, 0x30);
    let (reply, slot) = stored(&p, &[1; 4]);
    assert_eq!(reply, done(39, 32));
    assert_eq!(bytes_of(&slot, 6), [0x1f, 0, 0, 0, 0x30, 0]);
    assert_eq!(bit_count(&p, &[1; 4]), done(39, 32));
}

#[test]
fn p3_all_ones() {
    let (reply, slot) = stored(&params(INTEGERS, 1, EXACT, 32, 200), &P3);
    assert_eq!(reply, done(136, 32));
    starts_with(&slot, &"1".repeat(136));
}

#[test]
fn p4_just_wide_enough() {
    let (reply, slot) = stored(&params(INTEGERS, 1, EXACT, 32, 136), &P3);
    assert_eq!(reply, done(136, 32));
    assert!(!slot.contains(&false));
    let (reply, slot) = stored(&params(INTEGERS, 1, EXACT, 32, 135), &P3);
    assert_eq!(reply, too_long(136));
    assert!(!slot.contains(&true));
}

#[test]
fn p5_float_ones() {
    let (reply, slot) = stored(&params(FLOATS, 1, EXACT, 32, 0), &[0x3F80_0000; 4]);
    assert_eq!(reply, done(21, 3));
    starts_with(&slot, "10 00000001 01000 0 110 10");
}

#[test]
fn p6_float_zeros() {
    let p = params(FLOATS, 1, EXACT, 32, 200);
    let (reply, slot) = stored(&p, &[0; 4]);
    assert_eq!(reply, done(1, 0));
    starts_with(&slot, "0");
    let (reply, slot) = stored(&p, &[0x8000_0000; 4]);
    assert_eq!((reply.answer, reply.planes), (0, 32));
    assert_eq!(slot[..2], bits("11")[..]);
}

#[test]
fn p7_lossy_integers() {
    let p = params(INTEGERS, 1, LOSSY, 32, 131);
    let mut archive = [0xFF; 17];
    // The coefficients are all 0: a test for each plane.
    assert_eq!(reference::store(&p, &mut archive, 0, &[1, 0, 0, 0]), done(32, 32));
    let mut block = [7; 4];
    assert_eq!(read(&p, &archive, 0, &mut block), done(4, 32));
    assert_eq!(block, [0; 4]);
}

#[test]
fn p8_negabinary() {
    let coded = [-1i32, 1, 2, -2].map(|c| words::to_negabinary(c as u32));
    assert_eq!(coded, [3, 1, 6, 2]);
    assert_eq!(coded.map(|u| words::from_negabinary(u) as i32), [-1, 1, 2, -2]);
}

#[test]
fn p9_tests_and_scans() {
    let plane = bits("0 000101100100000");
    let mut out = Vec::new();
    assert_eq!(planes::code_tests(&plane, 1, &mut out), 11);
    assert_eq!(out, bits("100011011110010"));
}

fn writes(size: usize, doubles: &[u64], stream: &[u8]) {
    let (mut f, mut d) = (vec![9; size], vec![9; size]);
    let mut out = vec![0xEE; 64];
    assert_eq!(fpc_write(&mut f, &mut d, doubles, &mut out), fpc_done(stream.len() as u32));
    assert_eq!(&out[..stream.len()], stream);
    assert!(out[stream.len()..].iter().all(|&byte| byte == 0xEE));
    let mut back = vec![0xEE; doubles.len() + 1];
    assert_eq!(fpc_read(&mut f, &mut d, stream, &mut back), fpc_done(doubles.len() as u32));
    assert_eq!(&back[..doubles.len()], doubles);
}

#[test]
fn p10_fpc_of_zeros() {
    for size in [16, 32, 64, 128, 256, 512, 1024] {
        writes(size, &[0], &[0x76, 0x00]);
        writes(size, &[0, 0], &[0x77]);
        writes(size, &[], &[]);
    }
}

#[test]
fn p11_fpc_of_ones() {
    let one = 0x3FF0_0000_0000_0000;
    for size in [16, 32, 64, 128, 256, 512, 1024] {
        writes(size, &[one], &[0x06, 0, 0, 0, 0, 0, 0, 0xf0, 0x3f, 0x00]);
    }
    writes(16, &[one, one], &[0x07, 0, 0, 0, 0, 0, 0, 0xf0, 0x3f]);
}

#[test]
fn p12_not_a_stream() {
    let (mut f, mut d) = ([5; 16], [5; 16]);
    let mut doubles = [3; 4];
    assert_eq!(fpc_read(&mut f, &mut d, &[0x66, 0, 0], &mut doubles), fpc_refused(23));
    assert_eq!((f, d, doubles), ([0; 16], [0; 16], [3; 4]));
}

#[test]
fn the_worked_listing() {
    let input = b"0001012000300000\n00000001000000010000000100000001\naaaaaaab55555556aaaaaaac55555558\n";
    assert_eq!(listing(input), b"000027201f0000003000\n0a008800\n");
}
