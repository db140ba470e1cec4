//! Which records count as open.

use windlassow::TransferRecord;

/// The next byte is that of a pair.
pub const AT_PAIR: u32 = 1;
/// Bytes of a pair's first double are missing.
pub const IN_FIRST: u32 = 2;
/// Bytes of its second double are missing.
pub const IN_SECOND: u32 = 3;
/// The odd end has come.
pub const AFTER_END: u32 = 4;
/// Damage has come.
pub const DAMAGED: u32 = 5;

/// The bytes that follow for a half byte.
pub fn bytes_of_half(half: u32) -> u32 {
    [8, 7, 6, 5, 3, 2, 1, 0][half as usize % 8]
}

/// Whether a record is one of an open transfer. Every other one counts as closed.
pub fn is_fit(record: &TransferRecord) -> bool {
    let TransferRecord { state, given, pair, held, value, size, h, g, .. } = *record;
    let is_even = given % 2 == 0;
    let given_fits = match state {
        AT_PAIR => is_even,
        IN_FIRST => is_even && given < 4_096,
        IN_SECOND | AFTER_END => !is_even,
        DAMAGED => true,
        _ => false,
    };
    let held_fits = match state {
        IN_FIRST => held < bytes_of_half(pair >> 4),
        IN_SECOND => held < bytes_of_half(pair & 15),
        _ => held == 0,
    };
    let tables_fit = [16, 32, 64, 128, 256, 512, 1024].contains(&size) && h < size && g < size;
    let value_fits = held < 8 && value >> (8 * held) == 0;
    given <= 4_096 && pair < 256 && given_fits && held_fits && tables_fit && value_fits
}
