//! The refusals.

use crate::Done;
use crate::ffi::{FpcReply, Reply};
use std::error::Error;
use std::fmt::{self, Display, Formatter};

/// Why a call was refused. It changed no buffer, but that [`Refusal::OutputTooLong`] and [`Refusal::NotAStream`] leave
/// both FPC tables zero, and that [`Refusal::Damaged`] comes with the doubles before the damage.
///
/// Each has the answer number of the project's rules, which [`Refusal::number`] gives. If several apply, the
/// one of the lowest number is given, except that 13 comes between 5 and 6, 14 before 11 and 23 before 22; of a piece 25
/// comes before 20, and 23 before 22 only if an earlier piece was damaged.
#[derive(Clone, Copy, Debug, PartialEq, Eq, Hash)]
#[non_exhaustive]
pub enum Refusal {
    /// 1: the kind is not 0 or 1, or not the one that the call is for.
    InvalidKind,
    /// 2: the dimension is not from 1 to 4.
    InvalidDimension,
    /// 3: the mode is not 0 or 1, or not the one that the call is for.
    InvalidMode,
    /// 4: the number of planes is not from 1 to 32.
    InvalidPlanes,
    /// 5: the width is neither 0 nor from 16 to 8,462.
    InvalidWidth,
    /// 13: the lowest exponent is not from -300 to 300.
    InvalidLowest,
    /// 6: the archive is longer than 65,536 bytes.
    ArchiveTooLong,
    /// 7: the archive has no slot of that number.
    NoSuchSlot,
    /// 8: the buffer of words has not the length of a block.
    InvalidBlockLen,
    /// 9: an infinity or a NaN among floats that are to be stored lossy.
    NotFinite,
    /// 10: the exact code of the block is longer than the slot.
    CodeTooLong {
        /// The bits that the code needs.
        bits: usize,
    },
    /// 14: the new archive has fewer slots than the one that is copied.
    TooFewSlots,
    /// 11: the slot holds no exact code.
    NotACode,
    /// 11 of a copy: this slot of the old archive holds no exact code, and it is the first such slot.
    UnreadableSlot {
        /// The slot's number.
        slot: usize,
    },
    /// 20: the FPC tables are not of one length that is a power of two from 16 to 1,024.
    InvalidTables,
    /// 21: more than 4,096 doubles to write, or more than 65,536 bytes to read.
    InputTooLong,
    /// 22: the output is longer than the room lent. Both tables are zero.
    OutputTooLong {
        /// The bytes, or when reading the doubles, that are needed.
        needed: usize,
    },
    /// 23: the bytes are not the stream, for tables of this size, of any run of at most 4,096 doubles. Both tables
    /// are zero.
    NotAStream,
    /// 22 of a piece: there is room for fewer doubles than twice its bytes. Nothing has changed.
    PieceRoom {
        /// The doubles that there must be room for.
        needed: usize,
    },
    /// 23 of a piece: what came is not how a stream of at most 4,096 doubles begins. The doubles before the damage were given.
    Damaged {
        /// How many of them this piece gave; 0 if an earlier piece was damaged, and then nothing has changed.
        doubles: usize,
    },
    /// 23 of a close: what came is not a whole stream. The transfer is closed.
    NotWhole,
    /// 25: the transfer is not open.
    TransferClosed,
}

impl Refusal {
    /// The answer number.
    ///
    /// ```
    /// assert_eq!(windlassow::Refusal::NotACode.number(), 11);
    /// ```
    pub const fn number(self) -> u32 {
        match self {
            Refusal::InvalidKind => 1,
            Refusal::InvalidDimension => 2,
            Refusal::InvalidMode => 3,
            Refusal::InvalidPlanes => 4,
            Refusal::InvalidWidth => 5,
            Refusal::InvalidLowest => 13,
            Refusal::ArchiveTooLong => 6,
            Refusal::NoSuchSlot => 7,
            Refusal::InvalidBlockLen => 8,
            Refusal::NotFinite => 9,
            Refusal::CodeTooLong { .. } => 10,
            Refusal::TooFewSlots => 14,
            Refusal::NotACode | Refusal::UnreadableSlot { .. } => 11,
            Refusal::InvalidTables => 20,
            Refusal::InputTooLong => 21,
            Refusal::OutputTooLong { .. } | Refusal::PieceRoom { .. } => 22,
            Refusal::NotAStream | Refusal::Damaged { .. } | Refusal::NotWhole => 23,
            Refusal::TransferClosed => 25,
        }
    }

    /// What would have been needed, for the three refusals that say so: the bits of the code, the bytes of the
    /// stream, the doubles of the run or those that a piece may give.
    pub const fn needed(self) -> Option<usize> {
        match self {
            Refusal::CodeTooLong { bits } => Some(bits),
            Refusal::OutputTooLong { needed } | Refusal::PieceRoom { needed } => Some(needed),
            _ => None,
        }
    }

    /// The refusal of an answer number other than 0.
    fn from_numbers(answer: u32, count: u32) -> Refusal {
        let refusal = Refusal::from_answer(answer, count as usize);
        debug_assert!(count == 0 || refusal.needed().is_some(), "a count with answer {answer}");
        refusal
    }

    fn from_answer(answer: u32, count: usize) -> Refusal {
        match answer {
            1 => Refusal::InvalidKind,
            2 => Refusal::InvalidDimension,
            3 => Refusal::InvalidMode,
            4 => Refusal::InvalidPlanes,
            5 => Refusal::InvalidWidth,
            6 => Refusal::ArchiveTooLong,
            7 => Refusal::NoSuchSlot,
            8 => Refusal::InvalidBlockLen,
            9 => Refusal::NotFinite,
            10 => Refusal::CodeTooLong { bits: count },
            11 => Refusal::NotACode,
            13 => Refusal::InvalidLowest,
            14 => Refusal::TooFewSlots,
            20 => Refusal::InvalidTables,
            21 => Refusal::InputTooLong,
            22 => Refusal::OutputTooLong { needed: count },
            23 => Refusal::NotAStream,
            25 => Refusal::TransferClosed,
            other => panic!("the static library gave the answer {other}, which this version does not know"),
        }
    }

    /// What is wrong, without the number that a text may need.
    const fn text(self) -> &'static str {
        match self {
            Refusal::InvalidKind => "the kind is not 0 or 1, or not the one that the call is for",
            Refusal::InvalidDimension => "the dimension is not from 1 to 4",
            Refusal::InvalidMode => "the mode is not 0 or 1, or not the one that the call is for",
            Refusal::InvalidPlanes => "the number of planes is not from 1 to 32",
            Refusal::InvalidWidth => "the width is neither 0 nor from 16 to 8,462",
            Refusal::InvalidLowest => "the lowest exponent is not from -300 to 300",
            Refusal::ArchiveTooLong => "the archive is longer than 65,536 bytes",
            Refusal::NoSuchSlot => "the archive has no slot of that number",
            Refusal::InvalidBlockLen => "the buffer of words has not the length of a block",
            Refusal::NotFinite => "a float to be stored lossy is infinite or not a number",
            Refusal::CodeTooLong { .. } => "the code is longer than the slot",
            Refusal::TooFewSlots => "the new archive has fewer slots than the old one",
            Refusal::NotACode | Refusal::UnreadableSlot { .. } => "the slot holds no exact code",
            Refusal::InvalidTables => {
                "the tables are not of one length that is a power of two from 16 to 1,024"
            }
            Refusal::InputTooLong => "the input is above 4,096 doubles or 65,536 bytes",
            Refusal::OutputTooLong { .. } => {
                "the output is longer than the room lent, and both tables are now zero"
            }
            Refusal::NotAStream => {
                "the bytes are not the FPC stream, for tables of this length, of any run of at most 4,096 doubles, and \
                 both tables are now zero"
            }
            Refusal::PieceRoom { .. } => "the room is for fewer doubles than twice the piece's bytes",
            Refusal::Damaged { .. } => {
                "what came is not how an FPC stream, for tables of this length, of at most 4,096 doubles begins"
            }
            Refusal::NotWhole => {
                "what came is not the whole FPC stream, for tables of this length, of any run of at most 4,096 doubles"
            }
            Refusal::TransferClosed => "the transfer is not open",
        }
    }
}

/// The count and the planes of a done call on slots, or the refusal, which reports 0 planes.
pub(crate) fn outcome(reply: Reply) -> Result<Done, Refusal> {
    let Reply { answer, count, planes } = reply;
    if answer == 0 {
        return Ok(Done { count: count as usize, planes });
    }
    debug_assert!(planes == 0, "{planes} planes with answer {answer}");
    Err(Refusal::from_numbers(answer, count))
}

/// The slots that were copied, or the refusal: with 11 the count is the number of the first slot that cannot be read.
pub(crate) fn copy_outcome(reply: Reply) -> Result<usize, Refusal> {
    let Reply { answer, count, planes } = reply;
    debug_assert!(planes == 0, "{planes} planes with a copy");
    match answer {
        0 => Ok(count as usize),
        11 => Err(Refusal::UnreadableSlot { slot: count as usize }),
        _ => Err(Refusal::from_numbers(answer, count)),
    }
}

/// The count of a done call on streams, or the refusal.
pub(crate) fn fpc_outcome(reply: FpcReply) -> Result<usize, Refusal> {
    let FpcReply { answer, count } = reply;
    if answer == 0 { Ok(count as usize) } else { Err(Refusal::from_numbers(answer, count)) }
}

/// The doubles that a piece gave, or the refusal: 22 and 23 are other ones than those of a whole stream.
pub(crate) fn piece_outcome(reply: FpcReply) -> Result<usize, Refusal> {
    let FpcReply { answer, count } = reply;
    match answer {
        0 => Ok(count as usize),
        22 => Err(Refusal::PieceRoom { needed: count as usize }),
        23 => Err(Refusal::Damaged { doubles: count as usize }),
        _ => Err(Refusal::from_numbers(answer, count)),
    }
}

/// The doubles of a whole transfer, or the refusal.
pub(crate) fn close_outcome(reply: FpcReply) -> Result<usize, Refusal> {
    let FpcReply { answer, count } = reply;
    match answer {
        0 => Ok(count as usize),
        23 => {
            debug_assert!(count == 0, "{count} doubles with answer 23 of a close");
            Err(Refusal::NotWhole)
        }
        _ => Err(Refusal::from_numbers(answer, count)),
    }
}

impl Display for Refusal {
    fn fmt(&self, out: &mut Formatter<'_>) -> fmt::Result {
        out.write_str(self.text())?;
        match self {
            Refusal::CodeTooLong { bits } => write!(out, ": it needs {bits} bits"),
            Refusal::UnreadableSlot { slot } => write!(out, ": slot {slot}"),
            Refusal::OutputTooLong { needed } => {
                write!(out, ": it needs {needed} bytes to write, or doubles to read")
            }
            Refusal::PieceRoom { needed } => write!(out, ": it needs {needed} doubles"),
            Refusal::Damaged { doubles } => {
                write!(out, ": {doubles} doubles of this piece came before the damage")
            }
            _ => Ok(()),
        }
    }
}

impl Error for Refusal {}
