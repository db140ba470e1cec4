//! The static library's slot calls compared with the reference's, on many inputs.

mod blocks;
mod by_hand;
#[path = "../common/mod.rs"]
mod common;
mod compare;
mod cuts;
mod damage;
mod lowest;
mod make;
mod planes;
mod refusals;

/// Document 01's own cases, on the library alone.
#[test]
fn cases_of_document_01() {
    let p = |kind, mode, width| {
        windlassow::Params::from_numbers(kind, 1, mode, 32, width, windlassow::MIN_LOWEST)
    };
    let done = |count, planes| Ok(windlassow::Done { count, planes });
    let longest = [0xaaaaaaab, 0x55555556, 0xaaaaaaac, 0x55555558];
    let mut archive = [0xFF; 18];
    assert_eq!(windlassow::store(p(0, 1, 48), &mut archive, 0, &[0; 4]), done(6, 1));
    assert_eq!(archive[..7], [0, 0, 0, 0, 0, 0, 0xFF]);
    assert_eq!(windlassow::store(p(0, 1, 48), &mut archive, 0, &[1; 4]), done(39, 32));
    assert_eq!(archive[..7], [0x1f, 0, 0, 0, 0x30, 0, 0xFF]);
    let mut archive = [0; 19];
    assert_eq!(windlassow::store(p(0, 1, 136), &mut archive, 0, &longest), done(136, 32));
    assert_eq!(archive[..17], [0xFF; 17]);
    let refusal = windlassow::store(p(0, 1, 135), &mut archive, 0, &longest).unwrap_err();
    assert_eq!((refusal.number(), refusal.needed()), (10, Some(136)));
    assert_eq!(windlassow::store(p(1, 1, 0), &mut archive, 0, &[0x3F80_0000; 4]), done(21, 3));
    // 10 00000001 01000 0 110 10, lowest bit first in every byte.
    assert_eq!(archive[..4], [0b0000_0001, 0b0000_1010, 0b0000_1011, 0]);
    assert_eq!(windlassow::bit_count(p(1, 1, 0), &[0; 4]), done(1, 0));
    assert_eq!(
        windlassow::store(p(1, 1, 136), &mut archive, 0, &[0x8000_0000; 4]).map(|_| archive[0] & 3),
        Ok(3)
    );
    let mut words = [9; 4];
    assert_eq!(windlassow::store(p(0, 0, 131), &mut archive, 0, &[1, 0, 0, 0]), done(32, 32));
    assert_eq!(windlassow::read(p(0, 0, 131), &archive, 0, &mut words), done(4, 32));
    assert_eq!(words, [0; 4]);
}
