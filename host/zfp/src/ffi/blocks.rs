//! libzfp's calls for one block, by kind and dimension.

use super::ZfpStream;
use crate::libzfp::Shape;
use reference::params::Kind;

unsafe extern "C" {
    fn zfp_encode_block_int32_1(stream: *mut ZfpStream, block: *const i32) -> usize;
    fn zfp_encode_block_int32_2(stream: *mut ZfpStream, block: *const i32) -> usize;
    fn zfp_encode_block_int32_3(stream: *mut ZfpStream, block: *const i32) -> usize;
    fn zfp_encode_block_int32_4(stream: *mut ZfpStream, block: *const i32) -> usize;
    fn zfp_encode_block_float_1(stream: *mut ZfpStream, block: *const f32) -> usize;
    fn zfp_encode_block_float_2(stream: *mut ZfpStream, block: *const f32) -> usize;
    fn zfp_encode_block_float_3(stream: *mut ZfpStream, block: *const f32) -> usize;
    fn zfp_encode_block_float_4(stream: *mut ZfpStream, block: *const f32) -> usize;
    fn zfp_decode_block_int32_1(stream: *mut ZfpStream, block: *mut i32) -> usize;
    fn zfp_decode_block_int32_2(stream: *mut ZfpStream, block: *mut i32) -> usize;
    fn zfp_decode_block_int32_3(stream: *mut ZfpStream, block: *mut i32) -> usize;
    fn zfp_decode_block_int32_4(stream: *mut ZfpStream, block: *mut i32) -> usize;
    fn zfp_decode_block_float_1(stream: *mut ZfpStream, block: *mut f32) -> usize;
    fn zfp_decode_block_float_2(stream: *mut ZfpStream, block: *mut f32) -> usize;
    fn zfp_decode_block_float_3(stream: *mut ZfpStream, block: *mut f32) -> usize;
    fn zfp_decode_block_float_4(stream: *mut ZfpStream, block: *mut f32) -> usize;
}

/// Encodes a block; the bits written.
///
/// # Safety
/// The stream is open with room for the code, and the block has the shape's words.
pub unsafe fn encode_block(zfp: *mut ZfpStream, shape: Shape, words: *const u32) -> usize {
    // SAFETY: as the caller says.
    unsafe {
        match (shape.kind, shape.dimension) {
            (Kind::Integers, 1) => zfp_encode_block_int32_1(zfp, words.cast()),
            (Kind::Integers, 2) => zfp_encode_block_int32_2(zfp, words.cast()),
            (Kind::Integers, 3) => zfp_encode_block_int32_3(zfp, words.cast()),
            (Kind::Integers, 4) => zfp_encode_block_int32_4(zfp, words.cast()),
            (Kind::Floats, 1) => zfp_encode_block_float_1(zfp, words.cast()),
            (Kind::Floats, 2) => zfp_encode_block_float_2(zfp, words.cast()),
            (Kind::Floats, 3) => zfp_encode_block_float_3(zfp, words.cast()),
            (Kind::Floats, 4) => zfp_encode_block_float_4(zfp, words.cast()),
            (_, dimension) => unreachable!("libzfp has no blocks of dimension {dimension}"),
        }
    }
}

/// Decodes a block; the bits read.
///
/// # Safety
/// The stream is open over a whole code and what libzfp looks at beyond it, and the block has the shape's words.
pub unsafe fn decode_block(zfp: *mut ZfpStream, shape: Shape, words: *mut u32) -> usize {
    // SAFETY: as the caller says.
    unsafe {
        match (shape.kind, shape.dimension) {
            (Kind::Integers, 1) => zfp_decode_block_int32_1(zfp, words.cast()),
            (Kind::Integers, 2) => zfp_decode_block_int32_2(zfp, words.cast()),
            (Kind::Integers, 3) => zfp_decode_block_int32_3(zfp, words.cast()),
            (Kind::Integers, 4) => zfp_decode_block_int32_4(zfp, words.cast()),
            (Kind::Floats, 1) => zfp_decode_block_float_1(zfp, words.cast()),
            (Kind::Floats, 2) => zfp_decode_block_float_2(zfp, words.cast()),
            (Kind::Floats, 3) => zfp_decode_block_float_3(zfp, words.cast()),
            (Kind::Floats, 4) => zfp_decode_block_float_4(zfp, words.cast()),
            (_, dimension) => unreachable!("libzfp has no blocks of dimension {dimension}"),
        }
    }
}
