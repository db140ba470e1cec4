//! What a done call on a slot gives.

/// The count and the planes of a done call on a slot.
///
/// The planes say how much of a lossy record survived: the words come back as if all lower planes were zeros, but for what
/// is left of the first plane that was cut. Here a slot of 40 bits takes 28 of 32 planes of four readings, and two bits of the
/// next, a one and a test:
///
/// ```
/// use windlassow::{Block, Dimension, Done, Params, Refusal, read_block, store_block};
///
/// let params = Params::lossy_integers(Dimension::One, 32, 40);
/// let mut archive = [0; 5];
/// let done = store_block(params, &mut archive, 0, &[2000, 2004, 2008, 2012])?;
/// assert_eq!(done, Done { count: 40, planes: 28 });
/// assert_eq!(read_block(params, &archive, 0)?, Block { values: [1996, 2004, 2012, 2020], planes: 28 });
///
/// // With 51 bits nothing is cut.
/// let params = params.with_width(51);
/// let mut archive = [0; 7];
/// let done = store_block(params, &mut archive, 0, &[2000, 2004, 2008, 2012])?;
/// assert_eq!(done, Done { count: 51, planes: 32 });
/// # Ok::<(), Refusal>(())
/// ```
#[derive(Clone, Copy, Debug, PartialEq, Eq)]
pub struct Done {
    /// Of [`store`](crate::store) and [`bit_count`](crate::bit_count) the bits of the block's code, of
    /// [`read`](crate::read) the words of a block.
    pub count: usize,
    /// The bit planes that are whole, from the highest down: of a store those written whole within the slot, of a bit count
    /// those that a store would write so, of a read those that could be read whole. A plane that the end of the slot cuts is
    /// not counted, even if only zeros are lost. In exact mode nothing is cut, and these are all planes of the code, whatever
    /// the width. Floats that are all zero, and lossy ones of which the lowest exponent keeps no plane, are coded without
    /// planes: 0.
    pub planes: u32,
}
