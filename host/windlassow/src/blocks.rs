//! Blocks of `f32` and `i32`, and the blocks of an archive one after the other.

use crate::{Done, Kind, Params, Refusal, read, slot_count, store};
use std::iter::FusedIterator;
use std::marker::PhantomData;

mod sealed {
    /// A value and the word that stands for it.
    pub trait Word: Copy {
        fn to_word(self) -> u32;
        fn from_word(word: u32) -> Self;
    }

    impl Word for f32 {
        fn to_word(self) -> u32 {
            self.to_bits()
        }

        fn from_word(word: u32) -> f32 {
            f32::from_bits(word)
        }
    }

    impl Word for i32 {
        fn to_word(self) -> u32 {
            self as u32
        }

        fn from_word(word: u32) -> i32 {
            word as i32
        }
    }
}

/// What a block can hold: `f32` or `i32`. No other type has this trait.
pub trait Value: sealed::Word {
    /// The kind of a block of these.
    const KIND: Kind;
}

impl Value for f32 {
    const KIND: Kind = Kind::Floats;
}

impl Value for i32 {
    const KIND: Kind = Kind::Integers;
}

/// [`Refusal::InvalidKind`] where the parameters are those of the other type.
fn check_kind<T: Value>(params: Params) -> Result<(), Refusal> {
    if params.kind()? == T::KIND { Ok(()) } else { Err(Refusal::InvalidKind) }
}

/// Stores a block of `f32` or of `i32` in a slot and gives the bits of its code and its planes, as [`store`] does of words.
///
/// # Errors
/// [`Refusal::InvalidKind`] if the parameters are those of the other type; otherwise those of [`store`]. A refused
/// store changes nothing.
///
/// ```
/// use windlassow::{Block, Dimension, Params, Refusal, read_block, store_block};
///
/// let params = Params::exact_floats(Dimension::One);
/// let mut archive = [0; 19];
/// store_block(params, &mut archive, 0, &[36.6f32, 36.6, 36.7, 36.8])?;
/// let back = Block { values: [36.6f32, 36.6, 36.7, 36.8], planes: 26 };
/// assert_eq!(read_block(params, &archive, 0), Ok(back));
/// assert_eq!(read_block::<i32, 4>(params, &archive, 0), Err(Refusal::InvalidKind));
///
/// // A cube of 4 x 4 x 4 probes, a tenth of a degree colder with each square.
/// let params = Params::exact_floats(Dimension::Three);
/// let cube: [f32; 64] = std::array::from_fn(|place| [4.5, 4.4, 4.3, 4.2][place / 16]);
/// let mut archive = vec![0; params.archive_len(1)?];
/// store_block(params, &mut archive, 0, &cube)?;
/// assert_eq!(read_block(params, &archive, 0), Ok(Block { values: cube, planes: 26 }));
/// # Ok::<(), Refusal>(())
/// ```
pub fn store_block<T: Value, const N: usize>(
    params: Params,
    archive: &mut [u8],
    slot: usize,
    block: &[T; N],
) -> Result<Done, Refusal> {
    check_kind::<T>(params)?;
    store(params, archive, slot, &block.map(T::to_word))
}

/// A block that was read, and how many of its planes were there whole.
#[derive(Clone, Copy, Debug, PartialEq, Eq)]
pub struct Block<T, const N: usize> {
    /// The values.
    pub values: [T; N],
    /// The bit planes that could be read whole, as [`Done::planes`] has them: of a lossy record how much of it survived.
    pub planes: u32,
}

/// Reads a block of `f32` or of `i32` from a slot, as [`read`] does of words. N must be the length of a block.
///
/// # Errors
/// [`Refusal::InvalidKind`] if the parameters are those of the other type; otherwise those of [`read`], of which
/// [`Refusal::NotACode`] says less than it may seem to: see there.
pub fn read_block<T: Value, const N: usize>(
    params: Params,
    archive: &[u8],
    slot: usize,
) -> Result<Block<T, N>, Refusal> {
    check_kind::<T>(params)?;
    let mut words = [0; N];
    let Done { planes, .. } = read(params, archive, slot, &mut words)?;
    Ok(Block { values: words.map(T::from_word), planes })
}

/// The blocks of an archive, slot after slot. A slot that cannot be read is an error in its place, and the next one
/// follows.
///
/// # Errors
/// [`Refusal::InvalidKind`] if the parameters are those of the other type, [`Refusal::InvalidBlockLen`] if N is not the
/// length of a block, and the refusals of [`slot_count`]. In the sequence the only error is [`Refusal::NotACode`].
///
/// ```
/// use windlassow::{Dimension, Params, Refusal, slots, store_block};
///
/// let params = Params::exact_integers(Dimension::One);
/// let mut archive = vec![0; params.archive_len(3)?];
/// store_block(params, &mut archive, 0, &[1i32, 2, 3, 4])?;
/// store_block(params, &mut archive, 2, &[-5i32, -5, -5, -5])?;
/// archive[36] |= 0x08; // bit 291, the last one of slot 1: a one after its code
///
/// let blocks = slots::<i32, 4>(params, &archive)?.map(|block| Ok(block?.values));
/// let blocks: Vec<_> = blocks.collect();
/// assert_eq!(blocks, [Ok([1, 2, 3, 4]), Err(Refusal::NotACode), Ok([-5; 4])]);
/// # Ok::<(), Refusal>(())
/// ```
pub fn slots<T: Value, const N: usize>(params: Params, archive: &[u8]) -> Result<Slots<'_, T, N>, Refusal> {
    check_kind::<T>(params)?;
    let end = slot_count(params, archive)?;
    if params.block_len()? != N {
        return Err(Refusal::InvalidBlockLen);
    }
    Ok(Slots { params, archive, next: 0, end, value: PhantomData })
}

/// What [`slots`] gives.
#[derive(Clone, Debug)]
pub struct Slots<'a, T, const N: usize> {
    params: Params,
    archive: &'a [u8],
    next: usize,
    end: usize,
    value: PhantomData<T>,
}

impl<T: Value, const N: usize> Iterator for Slots<'_, T, N> {
    type Item = Result<Block<T, N>, Refusal>;

    fn next(&mut self) -> Option<Self::Item> {
        if self.next == self.end {
            return None;
        }
        let block = read_block(self.params, self.archive, self.next);
        self.next += 1;
        Some(block)
    }

    fn size_hint(&self) -> (usize, Option<usize>) {
        let left = self.end - self.next;
        (left, Some(left))
    }
}

impl<T: Value, const N: usize> ExactSizeIterator for Slots<'_, T, N> {}

impl<T: Value, const N: usize> FusedIterator for Slots<'_, T, N> {}
