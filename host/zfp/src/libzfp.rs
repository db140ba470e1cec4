//! libzfp behind safe calls on lists of bits, or the plain statement that it is not there.

use crate::bits::{bits_of, bytes_of};
use crate::order::Orders;
use reference::Params;
use reference::params::{Checked, Kind, Mode};

/// The bytes of every buffer lent to libzfp: 8,462 bits of a slot and much more.
pub const ROOM: usize = 4_096;

/// The most bits of a code of any kind and mode: 33N - 1 for 32 planes, and a head of 15.
pub fn longest_code(dimension: u32) -> usize {
    33 * 4usize.pow(dimension) + 14
}

/// The header's `ZFP_MAX_BITS`: no code has more.
pub const MAX_BITS: u32 = 16_658;

/// Said where libzfp is needed and missing.
pub const MISSING: &str = "libzfp is not installed: apt-get install libzfp-dev";

/// What the words of a block are, and how many.
#[derive(Clone, Copy, Debug, PartialEq, Eq)]
pub struct Shape {
    /// Integers or floats.
    pub kind: Kind,
    /// From 1 to 4.
    pub dimension: u32,
}

impl Shape {
    /// N.
    pub fn block_len(self) -> usize {
        4usize.pow(self.dimension)
    }
}

/// How libzfp is told to code a block.
#[derive(Clone, Copy, Debug)]
pub enum Setting {
    /// Expert mode: at least and at most so many bits, at most so many planes, a lowest exponent.
    Lossy {
        /// Zeros are written up to this many bits.
        least: u32,
        /// The budget, head included.
        most: u32,
        /// The planes.
        planes: u32,
        /// The lowest exponent, which libzfp looks at for floats only.
        lowest: i32,
    },
    /// Fixed-rate mode, so many bits a value.
    Rate(f64),
    /// Fixed-precision mode, so many planes.
    Precision(u32),
    /// Fixed-accuracy mode, with this tolerance.
    Accuracy(f64),
    /// Reversible mode.
    Reversible,
    /// Reversible mode cut after so many bits.
    ReversibleWithin(u32),
    /// Reversible mode of at most so many planes.
    ReversiblePlanes(u32),
}

/// The installed library.
pub struct Libzfp {
    /// Its own name of its version.
    pub version: String,
    /// The bits of its stream words: 8 in Debian's build, 64 by default.
    pub word_bits: usize,
    orders: [Orders; 4],
}

impl Libzfp {
    /// The library.
    ///
    /// # Errors
    /// The message that it is missing.
    #[cfg(libzfp)]
    pub fn find() -> Result<Libzfp, &'static str> {
        let (version, word_bits) = crate::ffi::version();
        Ok(Libzfp { version, word_bits, orders: [1, 2, 3, 4].map(Orders::find) })
    }

    /// The message that it is missing.
    #[cfg(not(libzfp))]
    pub fn find() -> Result<Libzfp, &'static str> {
        Err(MISSING)
    }

    /// The orders of coefficients in a dimension.
    pub fn orders(&self, dimension: u32) -> &Orders {
        &self.orders[dimension as usize - 1]
    }

    /// The bits that libzfp writes for a block.
    pub fn encode(&self, shape: Shape, setting: Setting, words: &[u32]) -> Vec<bool> {
        encode(shape, setting, words)
    }

    /// The number of bits that libzfp writes for a block.
    pub fn bits(&self, shape: Shape, setting: Setting, words: &[u32]) -> usize {
        raw::encode(shape, setting, words).1
    }

    /// The words that libzfp reads from these bits, followed by zeros, and the bits that it took.
    pub fn decode(&self, shape: Shape, setting: Setting, bits: &[bool]) -> (Vec<u32>, usize) {
        raw::decode(shape, setting, &bytes_of(bits))
    }

    /// A stream of so many blocks, each padded to W bits.
    pub fn stream(&self, params: &Params, blocks: usize) -> Stream {
        Stream::new(checked(params), blocks)
    }
}

/// The bits that libzfp writes for a block.
pub(crate) fn encode(shape: Shape, setting: Setting, words: &[u32]) -> Vec<bool> {
    let (bytes, count) = raw::encode(shape, setting, words);
    bits_of(&bytes, count)
}

#[cfg(libzfp)]
use crate::ffi as raw;
pub use raw::Stream;

/// No [`Libzfp`] can be had without the library, so these are never called.
#[cfg(not(libzfp))]
mod raw {
    use super::{Checked, MISSING, Setting, Shape};

    pub fn encode(_: Shape, _: Setting, _: &[u32]) -> (Vec<u8>, usize) {
        unreachable!("{MISSING}")
    }

    pub fn decode(_: Shape, _: Setting, _: &[u8]) -> (Vec<u32>, usize) {
        unreachable!("{MISSING}")
    }

    /// There is none.
    pub struct Stream(());

    impl Stream {
        /// Never called.
        pub fn new(_: Checked, _: usize) -> Stream {
            unreachable!("{MISSING}")
        }

        /// Never called.
        pub fn encode(&mut self, _: &[u32]) {
            unreachable!("{MISSING}")
        }

        /// Never called.
        pub fn decode(&mut self, _: &mut [u32]) {
            unreachable!("{MISSING}")
        }

        /// Never called.
        pub fn bytes(&self, _: usize) -> Vec<u8> {
            unreachable!("{MISSING}")
        }
    }
}

/// The shape that the parameters name.
pub fn shape(p: &Checked) -> Shape {
    Shape { kind: p.kind, dimension: p.dimension }
}

/// The setting that stands for document 01's mode, P and W and document 02's q. In exact mode document 01 compares the
/// whole code with W, so libzfp has no budget there.
pub fn setting(p: &Checked) -> Setting {
    match p.mode {
        Mode::Lossy => Setting::Lossy { least: 1, most: p.width as u32, planes: p.planes, lowest: p.lowest },
        Mode::Exact => Setting::Reversible,
    }
}

/// A lossy setting of at most so many planes with the parameters' q and no budget.
pub fn unlimited(p: &Checked, planes: u32) -> Setting {
    Setting::Lossy { least: 1, most: MAX_BITS, planes, lowest: p.lowest }
}

/// Parameters that are known to be good.
pub fn checked(p: &Params) -> Checked {
    p.check().expect("the comparison uses good parameters")
}
