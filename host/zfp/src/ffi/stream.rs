//! Blocks one after the other in one stream, each padded to the width of a slot.
//!
//! The stream is opened once and rewound for each pass, so that a benchmark of it measures the coding.

use super::blocks::{decode_block, encode_block};
use super::{
    BitStream, MAX_PREC, MIN_EXP, ZfpStream, stream_close, stream_open, stream_rewind, zfp_stream_close,
    zfp_stream_flush, zfp_stream_open, zfp_stream_set_params,
};
use crate::libzfp::shape;
use reference::params::{Checked, Mode};

/// A stream of so many blocks over a buffer of its own.
pub struct Stream {
    buffer: Vec<u64>,
    bits: *mut BitStream,
    zfp: *mut ZfpStream,
    params: Checked,
    blocks: usize,
}

impl Stream {
    /// A stream of zeros with room for so many blocks of these parameters.
    pub fn new(params: Checked, blocks: usize) -> Stream {
        // The words after the last slot are for what libzfp writes or looks at beyond it.
        let mut buffer = vec![0u64; blocks * params.width / 64 + 64];
        // SAFETY: the vector's bytes stay where they are until the stream over them is closed.
        let (bits, zfp) = unsafe {
            let bits = stream_open(buffer.as_mut_ptr().cast(), 8 * buffer.len());
            (bits, zfp_stream_open(bits))
        };
        assert!(!bits.is_null() && !zfp.is_null(), "libzfp has no memory");
        let (planes, exponent) = match params.mode {
            Mode::Lossy => (params.planes, params.lowest),
            Mode::Exact => (MAX_PREC, MIN_EXP - 1),
        };
        let width = params.width as u32;
        // SAFETY: the stream is open.
        let good = unsafe { zfp_stream_set_params(zfp, width, width, planes, exponent) };
        assert!(good != 0, "libzfp does not take {params:?}");
        Stream { buffer, bits, zfp, params, blocks }
    }

    /// Writes all blocks.
    pub fn encode(&mut self, words: &[u32]) {
        let len = self.params.block_len();
        assert_eq!(words.len(), self.blocks * len);
        // SAFETY: the stream is open and its buffer has W bits for each block, and each block has the words read.
        unsafe {
            stream_rewind(self.bits);
            for block in words.chunks_exact(len) {
                encode_block(self.zfp, shape(&self.params), block.as_ptr());
            }
            zfp_stream_flush(self.zfp);
        }
    }

    /// Reads all blocks.
    pub fn decode(&mut self, words: &mut [u32]) {
        let len = self.params.block_len();
        assert_eq!(words.len(), self.blocks * len);
        // SAFETY: the stream is open and its buffer has W bits for each block, and each block has the words written.
        unsafe {
            stream_rewind(self.bits);
            for block in words.chunks_exact_mut(len) {
                decode_block(self.zfp, shape(&self.params), block.as_mut_ptr());
            }
        }
    }

    /// The first bytes of the stream, in the order in which the machine stores its words.
    pub fn bytes(&self, count: usize) -> Vec<u8> {
        self.buffer.iter().flat_map(|word| word.to_ne_bytes()).take(count).collect()
    }
}

impl Drop for Stream {
    fn drop(&mut self) {
        // SAFETY: both are open, and are not used again.
        unsafe {
            zfp_stream_close(self.zfp);
            stream_close(self.bits);
        }
    }
}
