//! Some seconds of the comparison. The program `conversions` runs it for longer; so does `WINDLASSOW_LONG=1`.

use conversions::{Random, chosen_integers, chosen_patterns, random_ones, to_integer, to_pattern};

#[test]
fn chosen_integers_agree() {
    let count = chosen_integers(&mut Random::new(1)).unwrap();
    assert!(count > 8_000_000);
}

#[test]
fn chosen_patterns_agree() {
    let count = chosen_patterns(&mut Random::new(2)).unwrap();
    assert!(count > 5_000_000);
}

#[test]
fn random_ones_agree() {
    let long = random::is_long();
    let millions = if long { 2_000 } else { 10 };
    random_ones(&mut Random::new(3), millions * 1_000_000).unwrap();
}

#[test]
fn by_hand() {
    // e = 157 is a factor of 1.
    assert_eq!(to_pattern(157, 0), 0);
    assert_eq!(to_pattern(157, -3i32 as u32), (-3.0f32).to_bits());
    assert_eq!(to_integer(157, (-3.75f32).to_bits()) as i32, -3);
    // Ties to even, overflow, and a sign that stays.
    assert_eq!(to_pattern(157, (1 << 24) + 1), 0x4B80_0000);
    assert_eq!(to_pattern(157, (1 << 24) + 3), 0x4B80_0002);
    assert_eq!(to_pattern(255, 0x3FFF_FFDF), 0x7F7F_FFFF);
    assert_eq!(to_pattern(255, 0x3FFF_FFE0), 0x7F80_0000);
    assert_eq!(to_pattern(255, 0x8000_0000), 0xFF80_0000);
    assert_eq!(to_pattern(0, 0x80), 0);
    assert_eq!(to_pattern(0, 0x81), 1);
    assert_eq!(to_pattern(0, -0x80i32 as u32), 0x8000_0000);
    // Subnormals: the fraction times 2^7 for e = 1.
    assert_eq!(to_integer(1, 0x0000_0001), 1 << 7);
    assert_eq!(to_integer(1, 0x807F_FFFF) as i32, -(0x007F_FFFF << 7));
    assert_eq!(to_integer(255, 0x8000_0001), 0);
}
