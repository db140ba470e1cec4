//! Blocks of readings in slots of equal width, and doubles in FPC streams.
//!
//! This is the Rust interface to a static library that is written and proved in Rattle. An archive is a byte
//! buffer that the caller lends; it is cut into slots of W bits, and slot k starts at bit kW. A block is 4, 16, 64 or
//! 256 words of 32 bits, see [`Dimension`]. Words are integers (`value as u32`) or float patterns
//! ([`f32::to_bits`]); [`store_block`], [`read_block`] and [`slots`] take and give `i32` and `f32`.
//!
//! ```
//! use windlassow::{Dimension, Params, Refusal, read, slot_count, store};
//!
//! # fn main() -> Result<(), Refusal> {
//! let params = Params::exact_floats(Dimension::One);
//! let mut archive = vec![0u8; 1000];
//! assert_eq!(slot_count(params, &archive)?, 54);
//!
//! let block = [1.0f32, 1.5, 2.0, -0.0].map(f32::to_bits);
//! store(params, &mut archive, 7, &block)?;
//!
//! let mut back = [0u32; 4];
//! read(params, &archive, 7, &mut back)?;
//! assert_eq!(back, block);
//!
//! // There is no slot 54.
//! assert_eq!(read(params, &archive, 54, &mut back), Err(Refusal::NoSuchSlot));
//! # Ok(())
//! # }
//! ```
//!
//! A done call on a slot gives [`Done`]: a count, and how many bit planes are whole. Of a lossy record that says how much
//! of it survived. [`Params::lossy_floats_within`] takes a tolerance in degrees in place of planes.
//!
//! An FPC stream is read as a whole by [`fpc_read`], or in pieces as it comes by [`Transfer`].
//!
//! A refused call changes no buffer, with two exceptions: [`fpc_write`] and [`fpc_read`] leave both tables zero
//! with [`Refusal::OutputTooLong`] and [`Refusal::NotAStream`], and a damaged piece of a [`Transfer`] gives the doubles before
//! the damage.
//!
//! A call needs [`STACK_BYTES`] of stack; that is to be seen to in threads with small ones.
//!
//! **Damage is not detected.** [`Refusal::NotACode`] and [`Refusal::NotAStream`] say that no block or run has these
//! bits. A damaged slot or stream is often another block's or run's own code, and is then read without a sign. Who
//! can lose bytes keeps a checksum beside them.

mod blocks;
mod done;
mod ffi;
mod params;
mod refusal;
mod transfer;

pub use blocks::{Block, Slots, Value, read_block, slots, store_block};
pub use done::Done;
pub use params::{Dimension, Kind, Mode, Params};
pub use refusal::Refusal;
use refusal::{copy_outcome, fpc_outcome, outcome};
pub use transfer::{Transfer, TransferRecord};

/// The least bits of a slot; fewer are refused with [`Refusal::InvalidWidth`], but 0 stands for
/// 33N + 14 in exact mode and for 8N in lossy mode.
pub const MIN_WIDTH: u32 = 16;

/// The most bits of a slot, which every block fits; more are refused with [`Refusal::InvalidWidth`].
pub const MAX_WIDTH: u32 = 8_462;

/// The least lowest exponent, with which lossy floats keep all their planes; a lesser one is refused with
/// [`Refusal::InvalidLowest`].
pub const MIN_LOWEST: i32 = -300;

/// The greatest lowest exponent; a greater one is refused with [`Refusal::InvalidLowest`].
pub const MAX_LOWEST: i32 = 300;

/// The most bytes of an archive; a longer one is refused with [`Refusal::ArchiveTooLong`].
pub const MAX_ARCHIVE_LEN: usize = 65_536;

/// The most doubles of a run; more are refused with [`Refusal::InputTooLong`].
pub const MAX_RUN_LEN: usize = 4_096;

/// The most bytes that [`fpc_read`] looks at, and the most of a piece of a [`Transfer`]; more are refused with
/// [`Refusal::InputTooLong`]. No run has a stream of more than 34,816 bytes.
pub const MAX_STREAM_LEN: usize = 65_536;

/// The bytes of stack that no call takes more of. Some 11 KB were seen to be taken, with an older kit; the number leaves
/// room for other versions and compilers.
pub const STACK_BYTES: usize = 80 * 1024;

/// The README's example is compiled and run.
#[cfg(doctest)]
#[doc = include_str!("../../../README.md")]
struct Readme;

/// Stores a block in a slot and gives the bits of its code and the planes that were written whole. Only the bits of that
/// slot change.
///
/// # Errors
/// Refusals 1 to 10 and 13. [`Refusal::CodeTooLong`] has the bits that an exact block needs. A refused store changes nothing.
///
/// ```
/// use windlassow::{Dimension, Done, Params, Refusal, store};
///
/// let params = Params::exact_integers(Dimension::One).with_width(48);
/// let mut archive = [0u8; 12];
/// assert_eq!(store(params, &mut archive, 1, &[1; 4]), Ok(Done { count: 39, planes: 32 }));
/// assert_eq!(archive, [0, 0, 0, 0, 0, 0, 0x1f, 0, 0, 0, 0x30, 0]);
///
/// // A block that needs 136 bits does not fit into 48.
/// let block = [0xaaaaaaab, 0x55555556, 0xaaaaaaac, 0x55555558];
/// let refusal = store(params, &mut archive, 1, &block).unwrap_err();
/// assert_eq!(refusal, Refusal::CodeTooLong { bits: 136 });
/// assert_eq!(refusal.number(), 10);
/// ```
pub fn store(params: Params, archive: &mut [u8], slot: usize, words: &[u32]) -> Result<Done, Refusal> {
    outcome(ffi::store(params, archive, slot, words))
}

/// Reads a slot into `words`, which must have the length of a block, and gives that length and the planes that could be
/// read whole.
///
/// In exact mode a slot that no block could have produced is refused. In lossy mode every slot can be read. Where its end cuts
/// a plane in the search for a one, the bit is set at the place that the search has come to, as other zfp programs do; of such a
/// slot the planes are fewer than were coded.
///
/// A slot that was damaged is refused only if it has become no block's code. Often it is another block's own code
/// and is read as that block without a sign; a slot of zeros reads as zeros. Who can lose bytes keeps a checksum of
/// the archive beside it.
///
/// # Errors
/// Refusals 1 to 8 and 13, and in exact mode [`Refusal::NotACode`], 11. A refused read leaves `words` as they were.
///
/// ```
/// use windlassow::{Dimension, Done, Params, Refusal, read};
///
/// let mut words = [9; 4];
/// let exact = Params::exact_integers(Dimension::One).with_width(48);
/// assert_eq!(read(exact, &[0xff; 6], 0, &mut words), Err(Refusal::NotACode));
/// assert_eq!(words, [9; 4]);
/// // All places have a one in the first plane, which takes 7 bits. Of the other 41 each plane takes four.
/// let lossy = Params::lossy_integers(Dimension::One, 32, 48);
/// assert_eq!(read(lossy, &[0xff; 6], 0, &mut words), Ok(Done { count: 4, planes: 1 + 10 }));
///
/// // A lost slot reads as zeros, coded in a single plane.
/// assert_eq!(read(exact, &[0; 6], 0, &mut words), Ok(Done { count: 4, planes: 1 }));
/// assert_eq!(words, [0; 4]);
/// ```
pub fn read(params: Params, archive: &[u8], slot: usize, words: &mut [u32]) -> Result<Done, Refusal> {
    outcome(ffi::read(params, archive, slot, words))
}

/// The number of whole slots in an archive.
///
/// # Errors
/// Refusals 1 to 6 and 13.
///
/// ```
/// use windlassow::{Dimension, Params, slot_count};
///
/// let params = Params::lossy_floats(Dimension::Two, 20, 100);
/// assert_eq!(slot_count(params, &[0; 64]), Ok(5));
/// ```
pub fn slot_count(params: Params, archive: &[u8]) -> Result<usize, Refusal> {
    let done = outcome(ffi::slot_count(params, archive))?;
    debug_assert!(done.planes == 0, "{} planes with a slot count", done.planes);
    Ok(done.count)
}

/// The bits of a block's code and the planes written whole: what [`store`] would give. In exact mode the width does not
/// matter, and the bits are those that a slot needs.
///
/// # Errors
/// Refusals 1 to 5, 8, 9 and 13.
///
/// ```
/// use windlassow::{Dimension, Done, Params, bit_count};
///
/// let params = Params::exact_floats(Dimension::One);
/// assert_eq!(bit_count(params, &[1.0f32.to_bits(); 4]), Ok(Done { count: 21, planes: 3 }));
/// assert_eq!(bit_count(params, &[0; 4]), Ok(Done { count: 1, planes: 0 }));
/// ```
pub fn bit_count(params: Params, words: &[u32]) -> Result<Done, Refusal> {
    outcome(ffi::bit_count(params, words))
}

/// Copies an exact archive to a new one with slots of 33N + 14 bits, which every exact block fits: slot k to slot k. Gives the number
/// of slots copied. The new archive is read with the same parameters and a width of 0.
///
/// The parameters are those that the old archive was written with. One that was written with a width of 0 before 0 stood for
/// 33N + 14 is opened by naming 8N: `params.with_width(8 * n)`. Every slot of the old archive is read before one is written. The
/// bits of `new` outside of the slots copied stay as they were.
///
/// A copy is no check of the bytes: a damaged slot that is another block's code is copied as that one.
///
/// # Errors
/// Refusals 1 to 6 and 13; [`Refusal::InvalidMode`] for lossy mode too, [`Refusal::ArchiveTooLong`] for either buffer; then
/// [`Refusal::TooFewSlots`], 14, and [`Refusal::UnreadableSlot`], 11, with the number of the first slot that cannot be read. A refused
/// copy changes nothing.
///
/// ```
/// use windlassow::{Dimension, Params, Refusal, copy, read, store};
///
/// let full = Params::exact_integers(Dimension::One);
/// let old = full.with_width(48);
/// let mut archive = [0u8; 12];
/// store(old, &mut archive, 1, &[1; 4])?;
///
/// let mut new = vec![0u8; full.archive_len(2)?];
/// assert_eq!(copy(old, &archive, &mut new), Ok(2));
/// let mut back = [0u32; 4];
/// read(full, &new, 1, &mut back)?;
/// assert_eq!(back, [1; 4]);
///
/// archive[6..].fill(0xff);
/// assert_eq!(copy(old, &archive, &mut new), Err(Refusal::UnreadableSlot { slot: 1 }));
/// assert_eq!(copy(old, &archive, &mut new[..36]), Err(Refusal::TooFewSlots));
/// # Ok::<(), Refusal>(())
/// ```
pub fn copy(params: Params, archive: &[u8], new: &mut [u8]) -> Result<usize, Refusal> {
    copy_outcome(ffi::copy(params, archive, new))
}

/// Writes the FPC stream of a run of doubles, given as patterns, into `out` and gives its length in bytes.
///
/// `f` and `d` are the two tables, of one length that is a power of two from 16 to 1,024. What they hold at first
/// does not matter. The stream of n doubles is never longer than 17 bytes for each begun pair.
///
/// # Errors
/// Refusals 20 to 22. [`Refusal::OutputTooLong`] has the bytes needed; it leaves `out` as it was and both tables zero.
/// The others change nothing.
///
/// ```
/// use windlassow::{Refusal, fpc_write};
///
/// let (mut f, mut d) = ([0; 16], [0; 16]);
/// let run = [1.0f64, 1.0].map(f64::to_bits);
/// let mut out = [0; 17];
/// assert_eq!(fpc_write(&mut f, &mut d, &run, &mut out), Ok(9));
/// assert_eq!(out[..9], [0x07, 0, 0, 0, 0, 0, 0, 0xf0, 0x3f]);
///
/// let refusal = fpc_write(&mut f, &mut d, &run, &mut out[..8]).unwrap_err();
/// assert_eq!(refusal.needed(), Some(9));
/// ```
pub fn fpc_write(f: &mut [u64], d: &mut [u64], doubles: &[u64], out: &mut [u8]) -> Result<usize, Refusal> {
    fpc_outcome(ffi::fpc_write(f, d, doubles, out))
}

/// Reads an FPC stream into `doubles` and gives their number. The tables must have the length that they had when
/// the stream was written.
///
/// A damaged stream, or one read with tables of another length, may be another run's own stream and is then read as
/// that run without a sign.
///
/// # Errors
/// Refusals 20 to 23. [`Refusal::OutputTooLong`] has the doubles needed; it and [`Refusal::NotAStream`] leave `doubles`
/// as they were and both tables zero. The others change nothing.
///
/// ```
/// use windlassow::{Refusal, fpc_read};
///
/// let (mut f, mut d) = ([0; 16], [0; 16]);
/// let mut doubles = [0; 2];
/// assert_eq!(fpc_read(&mut f, &mut d, &[0x07, 0, 0, 0, 0, 0, 0, 0xf0, 0x3f], &mut doubles), Ok(2));
/// assert_eq!(doubles.map(f64::from_bits), [1.0, 1.0]);
///
/// assert_eq!(fpc_read(&mut f, &mut d, &[0x66, 0, 0], &mut doubles), Err(Refusal::NotAStream));
/// ```
pub fn fpc_read(f: &mut [u64], d: &mut [u64], stream: &[u8], doubles: &mut [u64]) -> Result<usize, Refusal> {
    fpc_outcome(ffi::fpc_read(f, d, stream, doubles))
}
