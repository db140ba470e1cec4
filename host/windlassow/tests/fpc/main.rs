//! The static library's FPC writer and reader compared with the reference's, on many inputs.

mod by_hand;
#[path = "../common/mod.rs"]
mod common;
mod compare;
mod make;
mod runs;
mod streams;

/// Document 01's own cases, on the library alone.
#[test]
fn cases_of_document_01() {
    let one = 0x3FF0_0000_0000_0000;
    let write = |run: &[u64]| {
        let (mut f, mut d, mut out) = ([7; 16], [8; 16], [0xEE; 20]);
        let end = windlassow::fpc_write(&mut f, &mut d, run, &mut out).unwrap();
        assert!(out[end..].iter().all(|&byte| byte == 0xEE));
        out[..end].to_vec()
    };
    assert_eq!(write(&[]), []);
    assert_eq!(write(&[0]), [0x76, 0x00]);
    assert_eq!(write(&[0, 0]), [0x77]);
    assert_eq!(write(&[one]), [0x06, 0, 0, 0, 0, 0, 0, 0xf0, 0x3f, 0x00]);
    assert_eq!(write(&[one, one]), [0x07, 0, 0, 0, 0, 0, 0, 0xf0, 0x3f]);
    let (mut f, mut d, mut doubles) = ([7; 16], [8; 16], [9; 3]);
    let refusal = windlassow::fpc_read(&mut f, &mut d, &[0x66, 0, 0], &mut doubles).unwrap_err();
    assert_eq!(refusal.number(), 23);
    assert_eq!((f, d, doubles), ([0; 16], [0; 16], [9; 3]));
}
