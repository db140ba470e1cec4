//! What libzfp is expected to write and to read: what documents 01 and 02 say, changed where a class says so and nowhere else.
//!
//! This is what makes a class exact. libzfp's codes and words must be these in every comparison, so a difference
//! that no class explains fails, and a class that says too much fails too.

use crate::bits::padded;
use crate::classes::{Head, scale_overflows, scale_underflows};
use crate::libzfp::longest_code;
use crate::order::{Orders, reordered};
use reference::code::{encode, float_planes};
use reference::floats::{common_exponent, to_pattern};
use reference::params::{Checked, Kind, Mode};
use reference::words::flip;
use reference::{bits, planes, transform};

/// What libzfp writes for a block, as far as it can be known.
pub enum Code {
    /// These bits.
    Known(Vec<bool>),
    /// These bits first. What follows comes from a conversion that C leaves undefined.
    Begins(Vec<bool>),
    /// Anything.
    Open,
}

impl Code {
    /// Whether these bits are such a code.
    pub fn holds(&self, bits: &[bool]) -> bool {
        match self {
            Code::Known(code) => bits == code,
            Code::Begins(head) => bits.starts_with(head),
            Code::Open => true,
        }
    }
}

/// The integer that an x86-64 makes of an infinity or a NaN. C leaves the conversion undefined.
const CONVERTED: Option<u32> = if cfg!(target_arch = "x86_64") { Some(0x8000_0000) } else { None };

/// What libzfp writes for a block, in its own order of coefficients if the orders are given, else in document 01's.
pub fn written(p: &Checked, words: &[u32], orders: Option<&Orders>) -> Code {
    // The whole code first: a cut one cannot be put into another order.
    let whole = Checked { width: longest_code(p.dimension), ..*p };
    let code = match (written_whole(&whole, words), orders) {
        (Code::Known(code), Some(orders)) => reordered(p, &code, orders).bits,
        (Code::Known(code), None) => code,
        (other, _) => return other,
    };
    let budget = if p.mode == Mode::Lossy { p.width } else { code.len() };
    Code::Known(code[..code.len().min(budget)].to_vec())
}

/// The same in document 01's order.
fn written_whole(p: &Checked, words: &[u32]) -> Code {
    if p.kind == Kind::Integers {
        return Code::Known(encode(p, words).bits);
    }
    if p.mode == Mode::Lossy && crate::classes::some_not_finite(words) {
        return Code::Open;
    }
    if !scale_overflows(words) {
        return Code::Known(encode(p, words).bits);
    }
    match p.mode {
        Mode::Lossy => overflowed(p, words),
        Mode::Exact => Code::Known(reinterpreted(p, words)),
    }
}

/// A lossy block whose scale overflows: every value becomes an infinity, or a NaN if it is 0, before it is
/// converted to an integer. The head is document 01's, and so is the single 0 of a block of no planes.
fn overflowed(p: &Checked, words: &[u32]) -> Code {
    let e = common_exponent(words);
    let planes = float_planes(p, e);
    if planes == 0 {
        return Code::Known(vec![false]);
    }
    let mut code = vec![true];
    code.extend(bits::number(e, 8));
    let Some(integer) = CONVERTED else {
        return Code::Begins(code);
    };
    let integers = Checked { kind: Kind::Integers, planes, width: p.width - code.len(), ..*p };
    code.extend(encode(&integers, &vec![integer; words.len()]).bits);
    Code::Known(code)
}

/// An exact block whose scale overflows: the values do not come back from their integers, so libzfp takes the form
/// with bits 1 1 whatever the values are.
fn reinterpreted(p: &Checked, words: &[u32]) -> Vec<bool> {
    let flipped: Vec<u32> = words.iter().map(|&word| flip(word)).collect();
    let mut code = vec![true, true];
    code.extend(encode(&Checked { kind: Kind::Integers, ..*p }, &flipped).bits);
    code
}

/// A slot as libzfp has it in exact mode, where it has no budget: zeros follow in its buffer, enough for any code.
pub fn followed_by_zeros(p: &Checked, slot: &[bool]) -> Vec<bool> {
    padded(slot, slot.len() + longest_code(p.dimension))
}

/// The words that libzfp reads from a slot, in its own order of coefficients if the orders are given, else in document 01's.
pub fn words_read(p: &Checked, slot: &[bool], orders: Option<&Orders>) -> Vec<u32> {
    let bits = if p.mode == Mode::Exact { followed_by_zeros(p, slot) } else { slot.to_vec() };
    let Some(head) = Head::of(p, &bits) else {
        return vec![0; p.block_len()];
    };
    let integers = integers_read(p, &bits[head.len..], head.planes, orders);
    match head.e {
        // In exact mode e = 0, which no writer writes, gives +0s whatever follows. libzfp's documentation is silent about
        // that, and we know it from trying it.
        Some(0) if p.mode == Mode::Exact => vec![0; integers.len()],
        Some(e) if scale_underflows(e) => integers.into_iter().map(times_zero).collect(),
        Some(e) => integers.into_iter().map(|integer| to_pattern(e, integer)).collect(),
        None if head.flipped => integers.into_iter().map(flip).collect(),
        None => integers,
    }
}

/// The integer times 0 in binary32: the zero of its sign.
fn times_zero(integer: u32) -> u32 {
    integer & 0x8000_0000
}

fn integers_read(p: &Checked, bits: &[bool], count: u32, orders: Option<&Orders>) -> Vec<u32> {
    let (mut coefficients, _): (Vec<u32>, u32) = planes::read(bits, p.block_len(), count);
    if let Some(orders) = orders {
        coefficients = orders.to_ours(&coefficients);
    }
    let step = if p.mode == Mode::Lossy { transform::unlift } else { transform::sums };
    transform::from_coefficients(&coefficients, p.dimension, step)
}
