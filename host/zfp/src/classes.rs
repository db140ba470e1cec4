//! The classes of difference between document 01 and libzfp, each with its condition.
//!
//! The conditions come from document 01 and from what libzfp's documentation says of itself (document 002 and
//! document 004), not from the outcomes compared. What follows from them for libzfp's codes and words is in
//! [`crate::expected`].

use reference::bits::Reader;
use reference::code::float_planes;
use reference::floats::{common_exponent, exponent, exponent_field, is_zero};
use reference::params::{Checked, Kind, Mode};

/// Why an outcome of libzfp is not document 01's.
#[derive(Clone, Copy, Debug, PartialEq, Eq, PartialOrd, Ord)]
pub enum Class {
    /// Writing floats: 2^(30-m) is above every binary32 number. See [`scale_overflows`].
    ScaleOverflow,
    /// Reading floats: 2^(m-30) is below every binary32 number but 0. See [`scale_underflows`].
    ScaleUnderflow,
    /// Row 9: a lossy block of floats with an infinity or a NaN. libzfp leaves open what it writes.
    NotFinite,
    /// Row 10: an exact code longer than W. libzfp knows no such refusal.
    TooLong,
    /// Row 11: an exact slot that no block has produced. libzfp reads every slot.
    NotACode,
    /// Dimensions 3 and 4: coefficients of equal sums of indices and of squares stand in libzfp's own order. A
    /// difference is of this class exactly if none is left in document 02's order. See [`crate::order`].
    TieOrder,
}

/// What both programs do.
#[derive(Clone, Copy, Debug, PartialEq, Eq)]
pub enum Call {
    /// Write a block.
    Write,
    /// Read a slot.
    Read,
}

impl Call {
    /// Both of them.
    pub const ALL: [Call; 2] = [Call::Write, Call::Read];
}

impl Class {
    /// All of them, in the order of their letters.
    pub const ALL: [Class; 6] = [
        Class::ScaleOverflow,
        Class::ScaleUnderflow,
        Class::NotFinite,
        Class::TooLong,
        Class::NotACode,
        Class::TieOrder,
    ];

    /// The classes of a call, as the report has them.
    pub fn of(call: Call) -> Vec<Class> {
        Class::ALL.into_iter().filter(|class| class.calls().contains(&call)).collect()
    }

    /// The calls whose outcomes can be of the class.
    fn calls(self) -> &'static [Call] {
        match self {
            Class::ScaleOverflow | Class::NotFinite | Class::TooLong => &[Call::Write],
            Class::ScaleUnderflow | Class::NotACode => &[Call::Read],
            Class::TieOrder => &[Call::Write, Call::Read],
        }
    }

    /// The place in [`Class::ALL`].
    pub fn index(self) -> usize {
        self as usize
    }

    /// The letter under which the class stands in the report. B was the cut scan's, which M-104 has done away with.
    pub fn letter(self) -> char {
        match self {
            Class::ScaleOverflow => 'A',
            Class::ScaleUnderflow => 'C',
            Class::NotFinite => 'D',
            Class::TooLong => 'E',
            Class::NotACode => 'F',
            Class::TieOrder => 'G',
        }
    }

    /// A short name.
    pub fn name(self) -> &'static str {
        match self {
            Class::ScaleOverflow => "scale overflow",
            Class::ScaleUnderflow => "scale underflow",
            Class::NotFinite => "answer 9",
            Class::TooLong => "answer 10",
            Class::NotACode => "answer 11",
            Class::TieOrder => "order of ties",
        }
    }

    /// Whether the class is stated for this call with blocks of this kind, mode and dimension. There it must occur;
    /// elsewhere it must not.
    pub fn is_stated(self, call: Call, kind: Kind, mode: Mode, dimension: u32) -> bool {
        let of_blocks = match self {
            Class::ScaleOverflow | Class::ScaleUnderflow => kind == Kind::Floats,
            Class::NotFinite => kind == Kind::Floats && mode == Mode::Lossy,
            Class::TooLong | Class::NotACode => mode == Mode::Exact,
            Class::TieOrder => ties_differ(dimension),
        };
        of_blocks && self.calls().contains(&call)
    }
}

/// The condition of [`Class::TieOrder`]: up to dimension 2, document 01 and libzfp order ties alike.
pub fn ties_differ(dimension: u32) -> bool {
    dimension > 2
}

/// The largest power of two of binary32 is 2^127.
const LARGEST_POWER: i32 = 127;
/// The smallest power of two of binary32, a subnormal number, is 2^-149.
const SMALLEST_POWER: i32 = -149;

/// The condition of [`Class::ScaleOverflow`]: the factor 2^(30-m) is no finite binary32 number.
///
/// That is m < -97, or a largest exponent field below 29. Document 002 names the overflow (ZFP_WITH_DAZ, issue 119);
/// it speaks of blocks of subnormal numbers alone.
pub fn scale_overflows(words: &[u32]) -> bool {
    let some_magnitude = words.iter().any(|&word| !is_zero(word));
    some_magnitude && 30 - exponent(common_exponent(words)) > LARGEST_POWER
}

/// The condition of [`Class::ScaleUnderflow`]: the factor 2^(m-30) is rounded to 0 in binary32.
///
/// That is m < -119, or e below 8. 2^-150 lies halfway between 0 and 2^-149, and goes to the even one, 0.
pub fn scale_underflows(e: u32) -> bool {
    exponent(e) - 30 < SMALLEST_POWER
}

/// The condition of [`Class::NotFinite`], which is that of row 9.
pub fn some_not_finite(words: &[u32]) -> bool {
    words.iter().any(|&word| exponent_field(word) == 255)
}

/// The bits in front of the planes, and e if there is one. None where there are no planes.
pub struct Head {
    /// Their number.
    pub len: usize,
    /// e, in the forms of floats that have it.
    pub e: Option<u32>,
    /// The planes that follow. In a slot that no store has written these can be none.
    pub planes: u32,
    /// Whether the words are patterns with their negative ones flipped.
    pub flipped: bool,
}

impl Head {
    /// The head of a slot's bits.
    pub fn of(p: &Checked, slot: &[bool]) -> Option<Head> {
        let mut reader = Reader::new(slot);
        let (mut e, mut len, mut flipped) = (None, 0, false);
        if p.kind == Kind::Floats {
            if !reader.bit() {
                return None;
            }
            len = 1;
            if p.mode == Mode::Exact {
                flipped = reader.bit();
                len = 2;
            }
            if !flipped {
                e = Some(reader.number(8));
                len += 8;
            }
        }
        if p.mode == Mode::Lossy {
            let planes = e.map_or(p.planes, |e| float_planes(p, e));
            return Some(Head { len, e, planes, flipped });
        }
        let planes = reader.number(5) + 1;
        Some(Head { len: len + 5, e, planes, flipped })
    }
}
