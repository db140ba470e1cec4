//! What the comparisons use.
#![allow(dead_code, unused_imports)]

pub use random::{Random, is_long, rounds};
use reference::{FpcReply, Params, Reply};
pub use testing::{Answers, EXACT, FLOATS, Guarded, INTEGERS, LOSSY, MAX_LOWEST, MIN_LOWEST};
use windlassow::{Done, Refusal};

/// `rounds(count)` for blocks of 4 words, and in each further dimension half as many: larger blocks take longer.
pub fn rounds_in(dimension: u32, count: usize) -> usize {
    rounds(count).div_ceil(1 << (dimension - 1))
}

pub fn block_len(p: &Params) -> usize {
    4usize.pow(p.dimension)
}

/// The bits of a slot: where the width is 0, 33N + 14 in exact mode and 8N in lossy mode.
pub fn width_of(p: &Params) -> usize {
    match (p.width, p.mode) {
        (0, EXACT) => full_width(p),
        (0, _) => 8 * block_len(p),
        (width, _) => width as usize,
    }
}

/// The bits of a slot that every exact block fits.
pub fn full_width(p: &Params) -> usize {
    33 * block_len(p) + 14
}

pub fn ours(p: &Params) -> windlassow::Params {
    windlassow::Params::from_numbers(p.kind, p.dimension, p.mode, p.planes, p.width, p.lowest)
}

/// The outcome of the library's slot call in the shape of the reference's. The interface sees to it that a refusal reports 0
/// planes, and the slot count too.
pub fn reply(outcome: Result<Done, Refusal>) -> Reply {
    match outcome {
        Ok(Done { count, planes }) => Reply::done(count, planes),
        Err(refusal) => Reply::needs(refusal.number(), refusal.needed().unwrap_or_default()),
    }
}

/// The same of an FPC call.
pub fn fpc_reply(outcome: Result<usize, Refusal>) -> FpcReply {
    match outcome {
        Ok(count) => FpcReply::done(count),
        Err(refusal) => FpcReply::needs(refusal.number(), refusal.needed().unwrap_or_default()),
    }
}
