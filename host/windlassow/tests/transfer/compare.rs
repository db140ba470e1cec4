//! A transfer with the library and one with the reference, call by call, and what must hold of each outcome.

use crate::common::*;
use crate::fit::is_fit;
use crate::make::lent_table;
use reference::FpcReply;
use std::mem;
use windlassow::{Refusal, TransferRecord, fpc_read};

/// What stands in room before a call.
const FILLING: u64 = 0x5EED_5EED_5EED_5EED;

/// What stands beside a record.
pub const GUARD: TransferRecord =
    TransferRecord { state: 1, given: 2, pair: 3, held: 4, value: 5, last: 6, size: 7, h: 8, g: 9 };

/// The outcome of a call on a transfer in the shape of the reference's.
pub fn reply_of(outcome: Result<usize, Refusal>) -> FpcReply {
    match outcome {
        Ok(count) => FpcReply::done(count),
        Err(Refusal::PieceRoom { needed }) => FpcReply::needs(22, needed),
        Err(Refusal::Damaged { doubles }) => FpcReply::needs(23, doubles),
        Err(refusal) => FpcReply::refused(refusal.number()),
    }
}

/// Both tables as the library leaves them, and as the reference does.
struct Tables {
    f: Guarded<u64>,
    d: Guarded<u64>,
    expected_f: Vec<u64>,
    expected_d: Vec<u64>,
}

impl Tables {
    /// Of these lengths, with any content.
    fn new(random: &mut Random, lens: (usize, usize)) -> Tables {
        let (f, d) = (lent_table(random, lens.0), lent_table(random, lens.1));
        Tables { f: Guarded::new(&f, 1), d: Guarded::new(&d, 2), expected_f: f, expected_d: d }
    }

    fn are_as_expected(&self) -> bool {
        *self.f == *self.expected_f && *self.d == *self.expected_d && self.f.is_intact() && self.d.is_intact()
    }

    fn content(&self) -> (Vec<u64>, Vec<u64>) {
        (self.f.to_vec(), self.d.to_vec())
    }
}

/// A record with its tables, lent to the library and to the reference in turn.
pub struct Compared {
    record: Guarded<TransferRecord>,
    expected: reference::Transfer,
    tables: Tables,
    is_damaged: bool,
    /// The bytes that were taken in since the opening.
    pub bytes: Vec<u8>,
    /// The doubles that were given since then.
    pub doubles: Vec<u64>,
    /// The answers so far.
    pub answers: Answers,
}

impl Compared {
    /// A closed record, and tables of any content.
    pub fn closed(random: &mut Random) -> Compared {
        Compared {
            record: Guarded::new(&[TransferRecord::default()], GUARD),
            expected: reference::Transfer::default(),
            tables: Tables::new(random, (16, 16)),
            is_damaged: false,
            bytes: Vec::new(),
            doubles: Vec::new(),
            answers: Answers::none(),
        }
    }

    /// A transfer with tables of this length.
    pub fn opened(random: &mut Random, size: usize) -> Compared {
        let mut transfer = Compared::closed(random);
        transfer.open(random, (size, size));
        transfer
    }

    /// Opens the transfer with new tables of any content.
    pub fn open(&mut self, random: &mut Random, lens: (usize, usize)) -> FpcReply {
        self.tables = Tables::new(random, lens);
        let Tables { f, d, expected_f, expected_d } = &mut self.tables;
        let expected = reference::transfer_open(&mut self.expected, expected_f, expected_d);
        let given = reply_of(self.record[0].open(f, d).map(|()| 0));
        assert_eq!(given, expected, "opening with tables of {lens:?}");
        assert!(self.tables.are_as_expected() && self.record.is_intact(), "opening with tables of {lens:?}");
        if given.answer == 0 {
            let (f, d) = self.tables.content();
            assert!(f.iter().chain(&d).all(|&entry| entry == 0), "tables of {lens:?} after the opening");
            assert!(is_fit(&self.record[0]) && self.record[0].given == 0, "{:?}", self.record[0]);
        } else {
            assert!(self.tables.f.is_unchanged() && self.tables.d.is_unchanged(), "tables of {lens:?}");
            assert_eq!(self.record[0], TransferRecord::default(), "a failed opening closes");
        }
        (self.bytes, self.doubles, self.is_damaged) = (Vec::new(), Vec::new(), false);
        self.counted(given)
    }

    /// Feeds a piece. Gives the reply.
    pub fn piece(&mut self, bytes: &[u8], room: usize) -> FpcReply {
        let before = (self.record[0], self.tables.content());
        let (lent, mut doubles) = (Guarded::new(bytes, 0x5A), Guarded::new(&vec![FILLING; room], 3));
        let mut expected_doubles = vec![FILLING; room];
        let Tables { f, d, expected_f, expected_d } = &mut self.tables;
        let expected = reference::transfer_piece(
            &mut self.expected,
            expected_f,
            expected_d,
            bytes,
            &mut expected_doubles,
        );
        let given = reply_of(self.record[0].piece(f, d, &lent, &mut doubles));
        let what = || format!("room {room}, {} after {}", shown(bytes), shown(&self.bytes));
        assert_eq!(given, expected, "{}", what());
        assert!(*doubles == *expected_doubles, "doubles: {}", what());
        assert!(self.tables.are_as_expected(), "tables: {}", what());
        assert!(doubles.is_intact() && lent.is_unchanged() && self.record.is_intact(), "{}", what());
        if given.answer == 0 || (given.answer == 23 && !self.is_damaged) {
            self.took(bytes, &doubles[..given.count as usize], given.answer);
        } else {
            assert!(doubles.is_unchanged(), "a refused piece changed the room: {}", what());
            assert_eq!((self.record[0], self.tables.content()), before, "a refused piece: {}", what());
        }
        self.counted(given)
    }

    /// A piece that was taken in, and the doubles that it gave.
    fn took(&mut self, bytes: &[u8], doubles: &[u64], answer: u32) {
        self.bytes.extend(bytes);
        self.doubles.extend(doubles);
        self.is_damaged = answer == 23;
        let record = &self.record[0];
        assert!(is_fit(record) && record.given as usize == self.doubles.len(), "{record:?}");
    }

    /// Feeds a piece with other tables, which is refused.
    pub fn piece_with(
        &mut self,
        random: &mut Random,
        lens: (usize, usize),
        bytes: &[u8],
        room: usize,
    ) -> FpcReply {
        let own = mem::replace(&mut self.tables, Tables::new(random, lens));
        let given = self.piece(bytes, room);
        assert!(given.answer != 0, "tables of {lens:?} were taken");
        self.tables = own;
        given
    }

    /// Feeds a piece that is refused: with other tables, too long, with short room, or all at once.
    pub fn refused_piece(&mut self, random: &mut Random) {
        let size = self.tables.f.len();
        let len = 1 + random.below(20);
        let bytes = random.bytes(len);
        let other = random.pick(&[0, 8, 16, 32, 48, 64, 1024, 2048]);
        let lens = random.pick(&[(other, other), (size, other), (other, size)]);
        let is_other = lens != (size, size);
        match random.below(5) {
            0 if is_other => self.piece_with(random, lens, &bytes, 2 * len),
            1 if is_other => self.piece_with(random, lens, &vec![bytes[0]; 65_537], 0),
            2 => self.piece(&vec![bytes[0]; 65_537], len),
            3 => self.piece(&bytes, 2 * len - 1),
            _ => self.piece(&bytes, random.below(2 * len)),
        };
    }

    /// Closes the transfer and compares it with the reader of whole streams. Gives the reply.
    pub fn close(&mut self) -> FpcReply {
        let before = (self.record[0], self.tables.content());
        let expected = reference::transfer_close(&mut self.expected);
        let given = reply_of(self.record[0].close());
        assert_eq!(given, expected, "close after {}", shown(&self.bytes));
        assert!(self.record.is_intact() && self.tables.content() == before.1, "after {}", shown(&self.bytes));
        if given.answer == 25 {
            assert_eq!(self.record[0], before.0, "a close of a closed record");
        } else {
            assert_eq!(self.record[0], TransferRecord::default(), "after {}", shown(&self.bytes));
            self.is_the_whole_streams(given);
        }
        self.counted(given)
    }

    /// On the library alone: the reader of whole streams, with room enough, accepts just what the close accepts, and gives the
    /// same doubles and tables.
    fn is_the_whole_streams(&self, close: FpcReply) {
        let (mut f, mut d) = self.tables.content();
        let mut doubles = vec![FILLING; 4_096];
        match fpc_read(&mut f, &mut d, &self.bytes, &mut doubles) {
            Ok(count) => {
                assert_eq!(close, FpcReply::done(count), "{}", shown(&self.bytes));
                assert!(doubles[..count] == self.doubles, "{}", shown(&self.bytes));
                assert!((f, d) == self.tables.content(), "{}", shown(&self.bytes));
            }
            Err(refusal) => {
                assert_eq!(close, FpcReply::refused(23), "{refusal}: {}", shown(&self.bytes));
            }
        }
    }

    /// Whether a piece was damaged since the opening.
    pub fn is_damaged(&self) -> bool {
        self.is_damaged
    }

    /// Both tables as they are now.
    pub fn tables(&self) -> (Vec<u64>, Vec<u64>) {
        self.tables.content()
    }

    /// The record as it is now.
    pub fn record(&self) -> TransferRecord {
        self.record[0]
    }

    fn counted(&mut self, reply: FpcReply) -> FpcReply {
        self.answers.count(reply.answer);
        reply
    }
}

pub fn shown(bytes: &[u8]) -> String {
    let start = &bytes[..bytes.len().min(32)];
    let more = if bytes.len() > start.len() { ".." } else { "" };
    format!("{} bytes {start:02x?}{more}", bytes.len())
}
