//! Lists of bits and the bytes that hold them: stream bit t is bit t mod 8 of byte t / 8.

use reference::bits::get;

/// The first bits of some bytes.
pub fn bits_of(bytes: &[u8], count: usize) -> Vec<bool> {
    (0..count).map(|t| get(bytes, t)).collect()
}

/// The bytes that hold these bits, with zeros in the last.
pub fn bytes_of(bits: &[bool]) -> Vec<u8> {
    bits.chunks(8).map(|byte| byte.iter().rev().fold(0, |low, &bit| low << 1 | u8::from(bit))).collect()
}

/// A code followed by zeros up to the width of a slot, or the code itself if it is longer.
pub fn padded(code: &[bool], width: usize) -> Vec<bool> {
    let mut bits = code.to_vec();
    bits.resize(width.max(code.len()), false);
    bits
}

/// The bytes of a list of bits as hexadecimal, first byte first.
pub fn hex(bits: &[bool]) -> String {
    bytes_of(bits).iter().map(|byte| format!("{byte:02x}")).collect()
}

/// Words as hexadecimal, eight digits each.
pub fn hex_words(words: &[u32]) -> String {
    words.iter().map(|word| format!("{word:08x}")).collect::<Vec<_>>().join(" ")
}
