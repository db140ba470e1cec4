//! The reader of request M-106, "that keeps its place in a record of the transfer, updated in place by each piece, with the
//! tables lent beside it".
//!
//! The record holds every byte that came, and each piece has all of them read again from the first. So the outcome cannot
//! depend on the cut.

use crate::fpc::{MOST_BYTES, MOST_DOUBLES, ODD_END, Predictors, good_tables, remaining_bytes, run_of};
use crate::reply::FpcReply;

/// "A record of the transfer". At first it is closed.
#[derive(Clone, Debug, Default, PartialEq, Eq)]
pub struct Transfer(Option<Open>);

/// What is known of an open transfer.
#[derive(Clone, Debug, PartialEq, Eq)]
struct Open {
    /// The length of the tables "at opening".
    size: usize,
    /// All pieces but those that were refused: "a piece refused with 20, 21 or 22 isn't part of the stream".
    bytes: Vec<u8>,
}

/// Opens a transfer: row 20. What the record was does not matter.
///
/// "Opening gives 20 and a closed record, or zeroes them", the tables.
pub fn transfer_open(transfer: &mut Transfer, f: &mut [u64], d: &mut [u64]) -> FpcReply {
    *transfer = Transfer(None);
    if !good_tables(f, d) {
        return FpcReply::refused(20);
    }
    f.fill(0);
    d.fill(0);
    *transfer = Transfer(Some(Open { size: f.len(), bytes: Vec::new() }));
    FpcReply::done(0)
}

/// Takes in a piece. "0 and 23 return how many this piece gave, and the tables stand as after them."
pub fn transfer_piece(
    transfer: &mut Transfer,
    f: &mut [u64],
    d: &mut [u64],
    piece: &[u8],
    doubles: &mut [u64],
) -> FpcReply {
    let (open, before) = match check_piece(transfer, f, d, piece, doubles) {
        Ok(checked) => checked,
        Err(refusal) => return refusal,
    };
    open.bytes.extend(piece);
    let after = beginning(open.size, &open.bytes);
    // "A damaged transfer hands out the doubles before the damage"
    let given = &after.doubles[before.doubles.len()..];
    doubles[..given.len()].copy_from_slice(given);
    after.predictors.copy_tables(f, d);
    let answer = if after.is_damaged { 23 } else { 0 };
    FpcReply { answer, ..FpcReply::done(given.len()) }
}

/// "Refusals of a piece, in order": those that come before "23, the only one to change anything".
fn check_piece<'a>(
    transfer: &'a mut Transfer,
    f: &[u64],
    d: &[u64],
    piece: &[u8],
    doubles: &[u64],
) -> Result<(&'a mut Open, Beginning), FpcReply> {
    // "25, after a close"; a record that was not opened is closed too.
    let open = transfer.0.as_mut().ok_or(FpcReply::refused(25))?;
    // "20, also for tables of another length than at opening"
    if !good_tables(f, d) || f.len() != open.size {
        return Err(FpcReply::refused(20));
    }
    // "21, a piece above 65,536 bytes"
    if piece.len() > MOST_BYTES {
        return Err(FpcReply::refused(21));
    }
    // "23 with count 0, damage earlier"
    let before = beginning(open.size, &open.bytes);
    if before.is_damaged {
        return Err(FpcReply::refused(23));
    }
    // "22, room for fewer doubles than twice the piece's bytes, returning that number"
    let most = 2 * piece.len();
    if doubles.len() < most {
        return Err(FpcReply::needs(22, most));
    }
    Ok((open, before))
}

/// Closes a transfer: "A close has 25 and 23 only, and 23 closes too."
///
/// "the close gives 0 and the number of doubles exactly when the whole-stream reader accepts with room enough [..]; else 23 and
/// 0."
pub fn transfer_close(transfer: &mut Transfer) -> FpcReply {
    let Some(open) = transfer.0.take() else {
        return FpcReply::refused(25);
    };
    match run_of(open.size, &open.bytes) {
        Some((run, _)) => FpcReply::done(run.len()),
        None => FpcReply::refused(23),
    }
}

/// What the first bytes of a stream tell.
struct Beginning {
    /// Those that are known: "Each double goes out as soon as it can be known."
    doubles: Vec<u64>,
    /// As after these.
    predictors: Predictors,
    /// Whether there is damage after these.
    is_damaged: bool,
}

/// Reads from the first byte as far as there are complete doubles without damage.
///
/// "Damage is a complete double that the rules code otherwise, or any byte after 4,096 doubles or an odd end."
fn beginning(size: usize, bytes: &[u8]) -> Beginning {
    let mut read = Beginning { doubles: Vec::new(), predictors: Predictors::new(size), is_damaged: false };
    let mut is_ended = false;
    let mut rest = bytes;
    while let Some((&pair, after)) = rest.split_first() {
        if is_ended {
            read.is_damaged = true;
            return read;
        }
        rest = after;
        for (half, is_second) in [(pair >> 4, false), (pair & 15, true)] {
            let Some((xor, others)) = rest.split_at_checked(remaining_bytes(half % 8)) else {
                return read;
            };
            rest = others;
            if is_second && half == ODD_END && xor == [0] {
                is_ended = true;
            } else if !read.take(half, xor) {
                return read;
            }
        }
        is_ended |= read.doubles.len() == MOST_DOUBLES;
    }
    read
}

impl Beginning {
    /// Takes in a complete double, or says that it is damage.
    fn take(&mut self, half: u8, xor: &[u8]) -> bool {
        let v = self.predictors.double(half, xor);
        self.is_damaged = self.predictors.code(v) != (half, xor.to_vec());
        if !self.is_damaged {
            self.predictors.update(v);
            self.doubles.push(v);
        }
        !self.is_damaged
    }
}
