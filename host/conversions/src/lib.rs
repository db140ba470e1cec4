//! The two conversions between binary32 patterns and integers, as the static library `conversions` has them,
//! compared with the hardware's own arithmetic.
//!
//! The hardware's side is [`reference::floats`]: one product in binary64, which is exact, and one conversion.

mod ffi;
mod patterns;

pub use ffi::{to_integer, to_pattern};
use patterns::{fractions, integers};
pub use random::Random;
use reference::floats;

/// A result that differs from the hardware's.
#[derive(Clone, Copy, Debug, PartialEq, Eq)]
pub struct Difference {
    /// The name of the conversion.
    pub conversion: &'static str,
    /// The exponent e.
    pub e: u32,
    /// The integer or the pattern that was converted.
    pub input: u32,
    /// What the library gave.
    pub given: u32,
    /// What the hardware gave.
    pub expected: u32,
}

/// The number of conversions that agreed, or the first that did not.
pub type Outcome = Result<u64, Difference>;

/// Compares one conversion of an integer. e is below 256.
///
/// # Errors
/// The first result that differs from the hardware's.
pub fn compare_to_pattern(e: u32, input: u32) -> Result<(), Difference> {
    let (given, expected) = (to_pattern(e, input), floats::to_pattern(e, input));
    same(Difference { conversion: "to_pattern", e, input, given, expected })
}

/// Compares one conversion of a pattern, whose exponent field is below e and below 255.
///
/// # Errors
/// The first result that differs from the hardware's.
pub fn compare_to_integer(e: u32, input: u32) -> Result<(), Difference> {
    let (given, expected) = (to_integer(e, input), floats::to_integer(e, input));
    same(Difference { conversion: "to_integer", e, input, given, expected })
}

fn same(result: Difference) -> Result<(), Difference> {
    if result.given == result.expected { Ok(()) } else { Err(result) }
}

/// Chosen integers with every e: every length, every number of bits that rounding drops, ties and their
/// neighbours, carries into the exponent, overflow and subnormals.
///
/// # Errors
/// The first result that differs from the hardware's.
pub fn chosen_integers(random: &mut Random) -> Outcome {
    let mut count = 0;
    for e in 0..256 {
        for input in integers(random) {
            compare_to_pattern(e, input)?;
            count += 1;
        }
    }
    Ok(count)
}

/// Chosen patterns with every e and every exponent field below it: every shift, fractions that are cut in every
/// place, both signs.
///
/// # Errors
/// The first result that differs from the hardware's.
pub fn chosen_patterns(random: &mut Random) -> Outcome {
    let mut count = 0;
    for e in 1..256 {
        for field in 0..e.min(255) {
            for fraction in fractions(random) {
                for sign in [0, 1 << 31] {
                    compare_to_integer(e, sign | field << 23 | fraction)?;
                    count += 1;
                }
            }
        }
    }
    Ok(count)
}

/// Random ones of both, `count` of each.
///
/// # Errors
/// The first result that differs from the hardware's.
pub fn random_ones(random: &mut Random, count: u64) -> Outcome {
    for _ in 0..count {
        let e = random.word_below(256);
        let shift = random.word_below(32);
        compare_to_pattern(e, (random.word() as i32 >> shift) as u32)?;
        let e = 1 + random.word_below(255);
        // Half of them near e, where not all bits are cut.
        let lowest = if random.word_below(2) == 0 { e.saturating_sub(40) } else { 0 };
        let field = lowest + random.word_below(e.min(255) - lowest);
        compare_to_integer(e, random.word() & 0x807F_FFFF | field << 23)?;
    }
    Ok(2 * count)
}

/// Every integer with one e, and every finite pattern whose field is below it.
///
/// # Errors
/// The first result that differs from the hardware's.
pub fn every_input(e: u32) -> Outcome {
    let mut count = 0;
    for input in 0..=u32::MAX {
        compare_to_pattern(e, input)?;
        count += 1;
        let field = floats::exponent_field(input);
        if field < e && field < 255 {
            compare_to_integer(e, input)?;
            count += 1;
        }
    }
    Ok(count)
}
