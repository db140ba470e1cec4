//! What several test files use.
#![allow(dead_code, unused_imports)]

pub use random::Random;
use reference::{FpcReply, Params, Reply};
pub use testing::{EXACT, FLOATS, INTEGERS, LOSSY, MAX_LOWEST, MIN_LOWEST, bits, by_hand};

/// With the q that keeps all planes.
pub fn params(kind: u32, dimension: u32, mode: u32, planes: u32, width: u32) -> Params {
    Params { kind, dimension, mode, planes, width, lowest: MIN_LOWEST }
}

pub fn done(count: u32, planes: u32) -> Reply {
    Reply { answer: 0, count, planes }
}

pub fn refused(answer: u32) -> Reply {
    Reply { answer, count: 0, planes: 0 }
}

/// Answer 10, with the bits that the code needs.
pub fn too_long(count: u32) -> Reply {
    Reply { answer: 10, count, planes: 0 }
}

pub fn fpc_done(count: u32) -> FpcReply {
    FpcReply { answer: 0, count }
}

pub fn fpc_refused(answer: u32) -> FpcReply {
    FpcReply { answer, count: 0 }
}

/// Stores in a buffer of zeros that has just room for the slot, and gives the slot's bits too.
pub fn stored(params: &Params, words: &[u32]) -> (Reply, Vec<bool>) {
    let width = params.check().unwrap().width;
    let mut archive = vec![0; width.div_ceil(8)];
    let reply = reference::store(params, &mut archive, 0, words);
    (reply, (0..width).map(|t| reference::bits::get(&archive, t)).collect())
}

/// The slot has this code and then zeros.
pub fn starts_with(slot: &[bool], text: &str) {
    let code = bits(text);
    assert_eq!(slot[..code.len()], code[..], "code");
    assert!(!slot[code.len()..].contains(&true), "padding");
}

/// Bytes that begin with these bits.
pub fn bytes_of(bits: &[bool], len: usize) -> Vec<u8> {
    let mut bytes = vec![0; len];
    for (t, &bit) in bits.iter().enumerate() {
        reference::bits::set(&mut bytes, t, bit);
    }
    bytes
}
