//! The exported functions of the static library. They take and give numbers only.
#![allow(unsafe_code)]

unsafe extern "C" {
    safe fn windlassow_to_pattern(e: u32, i: u32) -> u32;
    safe fn windlassow_to_integer(e: u32, w: u32) -> u32;
}

/// The two's complement integer times 2^(e-157), e below 256, rounded once to binary32.
pub fn to_pattern(e: u32, integer: u32) -> u32 {
    windlassow_to_pattern(e, integer)
}

/// The value of a pattern times 2^(157-e), cut toward zero, for an exponent field below e and below 255.
pub fn to_integer(e: u32, word: u32) -> u32 {
    windlassow_to_integer(e, word)
}
