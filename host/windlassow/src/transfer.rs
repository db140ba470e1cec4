//! FPC streams that come in pieces.

use crate::ffi;
use crate::refusal::{Refusal, close_outcome, fpc_outcome, piece_outcome};

/// Where a transfer stands: the record that each piece updates in place. A host that keeps it together with both tables, on a
/// disk or in memory of its own, can go on with the transfer later; [`Transfer`] has all three in one value.
///
/// Any numbers may stand in it. A record of zeros counts as closed, and so does one whose numbers are out of range or do not go
/// together; others are taken for open ones. What the numbers mean is the library's own affair, but for `given`.
#[repr(C)]
#[derive(Clone, Copy, Debug, Default, PartialEq, Eq)]
pub struct TransferRecord {
    /// Closed 0, at a pair's byte 1, in its first double 2, in its second 3, after the odd end 4, damaged 5.
    pub state: u32,
    /// The doubles that the transfer has given so far.
    pub given: u32,
    /// The byte of the last pair begun.
    pub pair: u32,
    /// How many bytes of the double in hand have come.
    pub held: u32,
    /// The number that these bytes make.
    pub value: u64,
    /// The last double.
    pub last: u64,
    /// The length of the tables.
    pub size: usize,
    /// The hash of the fcm side.
    pub h: usize,
    /// The hash of the dfcm side.
    pub g: usize,
}

impl TransferRecord {
    /// Opens the transfer and zeroes both tables. What the record held does not matter: an open one starts anew.
    ///
    /// # Errors
    /// [`Refusal::InvalidTables`], 20. The record is closed then, and the tables are as they were.
    pub fn open(&mut self, f: &mut [u64], d: &mut [u64]) -> Result<(), Refusal> {
        let count = fpc_outcome(ffi::transfer_open(self, f, d))?;
        debug_assert!(count == 0, "a count of {count} with an opening");
        Ok(())
    }

    /// Takes the next piece of the stream and gives the number of doubles that it made known, which stand at the start of
    /// `doubles`. The tables are those of the opening, as the last piece left them.
    ///
    /// # Errors
    /// In this order: [`Refusal::TransferClosed`], 25; [`Refusal::InvalidTables`], 20, also for tables of another length than at
    /// the opening; [`Refusal::InputTooLong`], 21; [`Refusal::Damaged`] with no doubles, 23, if an earlier piece was damaged;
    /// [`Refusal::PieceRoom`], 22. These change nothing, and the piece is not part of the stream. Last [`Refusal::Damaged`], 23,
    /// if this piece is damaged: it has given the doubles before the damage, as a good piece gives its own.
    pub fn piece(
        &mut self,
        f: &mut [u64],
        d: &mut [u64],
        piece: &[u8],
        doubles: &mut [u64],
    ) -> Result<usize, Refusal> {
        piece_outcome(ffi::transfer_piece(self, f, d, piece, doubles))
    }

    /// Closes the transfer and gives the number of its doubles, if all pieces together are a whole stream.
    ///
    /// # Errors
    /// [`Refusal::TransferClosed`], 25, which changes nothing, and [`Refusal::NotWhole`], 23, which closes too.
    pub fn close(&mut self) -> Result<usize, Refusal> {
        close_outcome(ffi::transfer_close(self))
    }
}

/// An FPC stream that is read as it comes, with the tables that it needs: arrays, vectors, or slices that are lent.
///
/// However the stream is cut into pieces, the doubles are those that [`fpc_read`](crate::fpc_read) reads from all of it, each as
/// soon as it can be known; and [`Transfer::finish`] says whether it was a whole stream. Until then all that is known is that no
/// damage has shown.
///
/// ```
/// use std::io::Read;
/// use windlassow::Transfer;
///
/// /// The doubles of a stream, from wherever it comes.
/// fn received(mut modem: impl Read) -> Result<Vec<f64>, Box<dyn std::error::Error>> {
///     let mut transfer = Transfer::open([0; 16], [0; 16])?;
///     let (mut piece, mut doubles) = ([0; 100], [0; 200]);
///     let mut all = Vec::new();
///     loop {
///         let len = modem.read(&mut piece)?;
///         if len == 0 {
///             transfer.finish()?;
///             return Ok(all);
///         }
///         let given = transfer.feed(&piece[..len], &mut doubles)?;
///         all.extend(doubles[..given].iter().copied().map(f64::from_bits));
///     }
/// }
///
/// // Twice 1.0, in pieces of four bytes and of five.
/// let bytes = [0x07, 0, 0, 0, 0, 0, 0, 0xf0, 0x3f];
/// assert_eq!(received(bytes[..4].chain(&bytes[4..])).unwrap(), [1.0, 1.0]);
/// // A byte is missing.
/// assert!(received(&bytes[..8]).is_err());
/// ```
#[derive(Clone, Debug)]
pub struct Transfer<T> {
    record: TransferRecord,
    f: T,
    d: T,
}

impl<T: AsMut<[u64]>> Transfer<T> {
    /// Opens a transfer with two tables of one length, that of the writer's tables. What they hold does not matter.
    ///
    /// # Errors
    /// [`Refusal::InvalidTables`], 20.
    ///
    /// ```
    /// use windlassow::{Refusal, Transfer};
    ///
    /// let (mut f, mut d) = ([0; 16], [0; 16]);
    /// let mut transfer = Transfer::open(&mut f[..], &mut d[..])?;
    /// let mut doubles = [0; 4];
    /// // A pair's byte and one of its eight bytes.
    /// assert_eq!(transfer.feed(&[0x07, 0x00], &mut doubles), Ok(0));
    /// assert_eq!(transfer.finish(), Err(Refusal::NotWhole));
    ///
    /// assert_eq!(Transfer::open([0; 16], [0; 16])?.finish(), Ok(0));
    /// assert_eq!(Transfer::open([0; 17], [0; 17]).unwrap_err(), Refusal::InvalidTables);
    /// # Ok::<(), Refusal>(())
    /// ```
    pub fn open(mut f: T, mut d: T) -> Result<Transfer<T>, Refusal> {
        let mut record = TransferRecord::default();
        record.open(f.as_mut(), d.as_mut())?;
        Ok(Transfer { record, f, d })
    }

    /// Takes the next piece of the stream, of at most 65,536 bytes, and gives the number of doubles that it made known, which
    /// stand at the start of `doubles`. There must be room for two doubles for each byte.
    ///
    /// # Errors
    /// [`Refusal::InputTooLong`], 21, and [`Refusal::PieceRoom`], 22: the piece is not part of the stream and can be fed again.
    /// [`Refusal::Damaged`], 23, with the doubles that the piece gave before the damage; every later piece has it with none.
    ///
    /// ```
    /// use windlassow::{Refusal, Transfer};
    ///
    /// let mut transfer = Transfer::open([0; 16], [0; 16])?;
    /// let mut doubles = [9; 6];
    /// assert_eq!(transfer.feed(&[0x77, 0x66, 0x05], &mut doubles[..5]), Err(Refusal::PieceRoom { needed: 6 }));
    /// // 0 and 0; then 5, and half byte 6 in the second place, whose byte has not come yet.
    /// assert_eq!(transfer.feed(&[0x77, 0x66, 0x05], &mut doubles), Ok(3));
    /// assert_eq!(doubles, [0, 0, 5, 9, 9, 9]);
    /// // 00 is the odd end, and any byte after it is damage.
    /// assert_eq!(transfer.feed(&[0x00], &mut doubles), Ok(0));
    /// assert_eq!(transfer.feed(&[0x77], &mut doubles), Err(Refusal::Damaged { doubles: 0 }));
    /// assert_eq!((transfer.doubles(), transfer.finish()), (3, Err(Refusal::NotWhole)));
    /// # Ok::<(), Refusal>(())
    /// ```
    pub fn feed(&mut self, piece: &[u8], doubles: &mut [u64]) -> Result<usize, Refusal> {
        self.record.piece(self.f.as_mut(), self.d.as_mut(), piece, doubles)
    }

    /// The doubles given so far.
    pub fn doubles(&self) -> usize {
        self.record.given as usize
    }

    /// Ends the transfer and gives the number of its doubles, if all that was fed is a whole stream.
    ///
    /// # Errors
    /// [`Refusal::NotWhole`], 23.
    pub fn finish(mut self) -> Result<usize, Refusal> {
        self.record.close()
    }
}
