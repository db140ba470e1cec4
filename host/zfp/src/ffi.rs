//! The functions of libzfp that the comparison and the benchmark call. All unsafe code is here and below.
//!
//! The declarations are written from the header `zfp.h` of version 1.0.0. libzfp checks no bounds, so the buffer of
//! a single block is of [`ROOM`] bytes, more than it can take or a reading of it can look at.
#![allow(unsafe_code)]

mod blocks;
mod stream;

use crate::libzfp::{MAX_BITS, ROOM, Setting, Shape};
use blocks::{decode_block, encode_block};
use reference::params::Kind;
use std::ffi::{CStr, c_char, c_double, c_int, c_uint, c_void};
pub use stream::Stream;

#[repr(C)]
struct BitStream {
    _opaque: [u8; 0],
}

#[repr(C)]
struct ZfpStream {
    _opaque: [u8; 0],
}

unsafe extern "C" {
    static zfp_version_string: *const c_char;
    static stream_word_bits: usize;

    fn stream_open(buffer: *mut c_void, bytes: usize) -> *mut BitStream;
    fn stream_close(stream: *mut BitStream);
    fn stream_rewind(stream: *mut BitStream);
    fn stream_wtell(stream: *const BitStream) -> u64;
    fn stream_rtell(stream: *const BitStream) -> u64;

    fn zfp_stream_open(stream: *mut BitStream) -> *mut ZfpStream;
    fn zfp_stream_close(stream: *mut ZfpStream);
    fn zfp_stream_flush(stream: *mut ZfpStream) -> usize;
    fn zfp_stream_set_params(
        zfp: *mut ZfpStream,
        min: c_uint,
        max: c_uint,
        prec: c_uint,
        exp: c_int,
    ) -> c_int;
    fn zfp_stream_set_rate(
        zfp: *mut ZfpStream,
        rate: c_double,
        t: c_int,
        dims: c_uint,
        align: c_int,
    ) -> c_double;
    fn zfp_stream_set_precision(zfp: *mut ZfpStream, precision: c_uint) -> c_uint;
    fn zfp_stream_set_accuracy(zfp: *mut ZfpStream, tolerance: c_double) -> c_double;
    fn zfp_stream_set_reversible(zfp: *mut ZfpStream);
}

/// The header's `zfp_type_int32` and `zfp_type_float`.
fn type_of(kind: Kind) -> c_int {
    match kind {
        Kind::Integers => 1,
        Kind::Floats => 3,
    }
}

/// The header's `ZFP_MIN_EXP`; a lower number stands for the reversible mode.
const MIN_EXP: c_int = -1074;
/// The header's `ZFP_MAX_PREC`.
const MAX_PREC: c_uint = 64;

/// A stream over a buffer of its own.
struct Session {
    buffer: Vec<u64>,
    bits: *mut BitStream,
    zfp: *mut ZfpStream,
}

impl Session {
    fn new(content: &[u8], shape: Shape, setting: Setting) -> Session {
        assert!(content.len() <= ROOM);
        let mut buffer = vec![0; ROOM / 8];
        // SAFETY: the buffer has ROOM bytes, and stays where it is until the stream over it is closed.
        let (bits, zfp) = unsafe {
            let bytes: *mut u8 = buffer.as_mut_ptr().cast();
            content.as_ptr().copy_to_nonoverlapping(bytes, content.len());
            let bits = stream_open(bytes.cast(), ROOM);
            (bits, zfp_stream_open(bits))
        };
        assert!(!bits.is_null() && !zfp.is_null(), "libzfp has no memory");
        let session = Session { buffer, bits, zfp };
        session.set(shape, setting);
        session
    }

    fn set(&self, shape: Shape, setting: Setting) {
        // SAFETY: the stream is open, and these calls write to nothing else.
        let good = unsafe {
            match setting {
                Setting::Lossy { least, most, planes, lowest } => {
                    zfp_stream_set_params(self.zfp, least, most, planes, lowest) != 0
                }
                Setting::Rate(rate) => {
                    zfp_stream_set_rate(self.zfp, rate, type_of(shape.kind), shape.dimension, 0) == rate
                }
                Setting::Precision(planes) => zfp_stream_set_precision(self.zfp, planes) == planes,
                Setting::Accuracy(tolerance) => {
                    // What is set is the power of two that is not above it.
                    let power = zfp_stream_set_accuracy(self.zfp, tolerance);
                    power <= tolerance && tolerance < 2.0 * power
                }
                Setting::Reversible => {
                    zfp_stream_set_reversible(self.zfp);
                    true
                }
                Setting::ReversibleWithin(most) => {
                    zfp_stream_set_params(self.zfp, 1, most, MAX_PREC, MIN_EXP - 1) != 0
                }
                Setting::ReversiblePlanes(planes) => {
                    zfp_stream_set_params(self.zfp, 1, MAX_BITS, planes, MIN_EXP - 1) != 0
                }
            }
        };
        assert!(good, "libzfp does not take {setting:?}");
    }

    /// The bytes of the buffer. A stream's words are written as the machine stores them, so on a little-endian one
    /// these are the stream's bytes.
    fn bytes(&self) -> Vec<u8> {
        self.buffer.iter().flat_map(|word| word.to_ne_bytes()).collect()
    }
}

impl Drop for Session {
    fn drop(&mut self) {
        // SAFETY: both are open, and are not used again.
        unsafe {
            zfp_stream_close(self.zfp);
            stream_close(self.bits);
        }
    }
}

/// Encodes one block; the bytes of the whole buffer, and the bits that libzfp says it has written.
pub fn encode(shape: Shape, setting: Setting, words: &[u32]) -> (Vec<u8>, usize) {
    assert_eq!(words.len(), shape.block_len());
    let session = Session::new(&[], shape, setting);
    // SAFETY: the stream is open, its buffer is large enough, and the block has the words that are read.
    let (count, told) = unsafe {
        let count = encode_block(session.zfp, shape, words.as_ptr());
        let told = stream_wtell(session.bits);
        zfp_stream_flush(session.zfp);
        (count, told)
    };
    assert_eq!(count as u64, told, "libzfp's count and its place in the stream");
    (session.bytes(), count)
}

/// Decodes one block from the first bytes of a buffer that is zero after them; the words, and the bits that libzfp
/// says it has read.
pub fn decode(shape: Shape, setting: Setting, content: &[u8]) -> (Vec<u32>, usize) {
    let session = Session::new(content, shape, setting);
    let mut words = vec![0u32; shape.block_len()];
    // SAFETY: the stream is open, its buffer is large enough, and the block has the words that are written.
    let (count, told) = unsafe {
        let count = decode_block(session.zfp, shape, words.as_mut_ptr());
        (count, stream_rtell(session.bits))
    };
    assert_eq!(count as u64, told, "libzfp's count and its place in the stream");
    (words, count)
}

/// The library's own name of its version, and the bits of its stream words.
pub fn version() -> (String, usize) {
    // SAFETY: the pointer is to a constant C string of the library.
    unsafe { (CStr::from_ptr(zfp_version_string).to_string_lossy().into_owned(), stream_word_bits) }
}
