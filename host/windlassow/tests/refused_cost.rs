//! A refused call does no work that grows with its buffers: every exported call is refused with buffers of 2^34 bytes, and has to answer
//! at once. A walk through one of them takes seconds.

#[allow(unsafe_code)]
#[path = "common/huge.rs"]
mod huge;

use huge::{HUGE, Mapped, Slow};
use windlassow::{
    MIN_LOWEST, Mode, Params, Refusal, TransferRecord, bit_count, copy, fpc_read, fpc_write, read,
    slot_count, store,
};

/// The bytes of a small archive: it has a slot of the widest, and no more than 264 of any.
const SMALL: usize = 1_058;

fn huge_archive() -> Mapped<u8> {
    Mapped::new(HUGE + 64)
}

/// 2^32 words and one block more.
fn huge_words(dimension: u32) -> Mapped<u32> {
    Mapped::new(HUGE / 4 + 4usize.pow(dimension))
}

fn params([kind, dimension, mode, planes, width]: [u32; 5]) -> Params {
    Params::from_numbers(kind, dimension, mode, planes, width, MIN_LOWEST)
}

/// Good parameters of each kind, dimension and mode, with the dimension.
fn good() -> Vec<(u32, Params, String)> {
    let mut all = Vec::new();
    for number in 0..16 {
        let (kind, mode, dimension) = (number & 1, number >> 1 & 1, 1 + (number >> 2));
        let what = format!("kind {kind}, dimension {dimension}, mode {mode}");
        all.push((dimension, params([kind, dimension, mode, 32, 0]), what));
    }
    all
}

/// Parameters of which one is bad, with the refusal's number.
fn bad() -> Vec<(u32, Params)> {
    let mut all = Vec::new();
    for (kind, mode) in [(0, 0), (0, 1), (1, 0), (1, 1)] {
        for many in [2, u32::MAX] {
            all.push((1, params([many, 1, mode, 32, 0])));
            all.push((3, params([kind, 1, many, 32, 0])));
        }
        for dimension in [0, 5, u32::MAX] {
            all.push((2, params([kind, dimension, mode, 32, 0])));
        }
        for planes in [0, 33, u32::MAX] {
            all.push((4, params([kind, 1, mode, planes, 0])));
        }
        for width in [1, 15, 8_463, u32::MAX] {
            all.push((5, params([kind, 1, mode, 32, width])));
        }
        for lowest in [i32::MIN, -301, 301, i32::MAX] {
            all.push((13, params([kind, 1, mode, 32, 0]).with_lowest(lowest)));
        }
    }
    all
}

#[test]
fn a_refused_store() {
    let mut slow = Slow::default();
    let (mut archive, mut small) = (huge_archive(), [0; SMALL]);
    for (number, p) in bad() {
        let words = huge_words(1);
        slow.refused(number, &format!("store, bad parameters {p:?}"), || store(p, &mut archive, 0, &words));
    }
    for (dimension, p, what) in good() {
        let words = huge_words(dimension);
        let block = &words[..4usize.pow(dimension)];
        slow.refused(6, &format!("store, {what}, huge archive"), || store(p, &mut archive, 0, block));
        slow.refused(6, &format!("store, {what}, both huge"), || store(p, &mut archive, 0, &words));
        for slot in [300, 1 << 32, usize::MAX] {
            slow.refused(7, &format!("store, {what}, slot {slot}"), || store(p, &mut small, slot, &words));
        }
        slow.refused(8, &format!("store, {what}, huge words"), || store(p, &mut small, 0, &words));
    }
    slow.end();
}

#[test]
fn a_refused_read() {
    let mut slow = Slow::default();
    let (archive, small) = (huge_archive(), [0; SMALL]);
    for (number, p) in bad() {
        let mut words = huge_words(1);
        slow.refused(number, &format!("read, bad parameters {p:?}"), || read(p, &archive, 0, &mut words));
    }
    for (dimension, p, what) in good() {
        let mut words = huge_words(dimension);
        let mut block = vec![0; 4usize.pow(dimension)];
        slow.refused(6, &format!("read, {what}, huge archive"), || read(p, &archive, 0, &mut block));
        slow.refused(6, &format!("read, {what}, both huge"), || read(p, &archive, 0, &mut words));
        for slot in [300, 1 << 32, usize::MAX] {
            slow.refused(7, &format!("read, {what}, slot {slot}"), || read(p, &small, slot, &mut words));
        }
        slow.refused(8, &format!("read, {what}, huge words"), || read(p, &small, 0, &mut words));
    }
    slow.end();
}

#[test]
fn a_refused_slot_count() {
    let mut slow = Slow::default();
    let archive = huge_archive();
    for (number, p) in bad() {
        slow.refused(number, &format!("slot count, bad parameters {p:?}"), || slot_count(p, &archive));
    }
    for (_, p, what) in good() {
        slow.refused(6, &format!("slot count, {what}, huge archive"), || slot_count(p, &archive));
    }
    slow.end();
}

#[test]
fn a_refused_bit_count() {
    let mut slow = Slow::default();
    for (number, p) in bad() {
        let words = huge_words(1);
        slow.refused(number, &format!("bit count, bad parameters {p:?}"), || bit_count(p, &words));
    }
    for (dimension, p, what) in good() {
        let words = huge_words(dimension);
        slow.refused(8, &format!("bit count, {what}, huge words"), || bit_count(p, &words));
    }
    slow.end();
}

/// The row of a copy: lossy mode is refused with 3, before all later rows.
fn row_of_a_copy(number: u32, p: Params) -> u32 {
    if number > 3 && p.mode() == Ok(Mode::Lossy) { 3 } else { number }
}

/// One buffer or both huge, and the longest archives with too few slots: the rows before 11 look at no slot.
#[test]
fn a_refused_copy() {
    let mut slow = Slow::default();
    let (archive, mut new) = (huge_archive(), huge_archive());
    for (number, p) in bad() {
        let number = row_of_a_copy(number, p);
        slow.refused(number, &format!("copy, bad parameters {p:?}"), || copy(p, &archive, &mut new));
    }
    for (_, p, what) in good() {
        let number = row_of_a_copy(6, p);
        slow.refused(number, &format!("copy, {what}, both huge"), || copy(p, &archive, &mut new));
        slow.refused(number, &format!("copy, {what}, old one huge"), || copy(p, &archive, &mut new[..SMALL]));
        slow.refused(number, &format!("copy, {what}, new one huge"), || copy(p, &archive[..SMALL], &mut new));
        let number = row_of_a_copy(14, p);
        slow.refused(number, &format!("copy, {what}, too few slots"), || {
            copy(p.with_width(16), &archive[..65_536], &mut new[..65_536])
        });
    }
    slow.end();
}

/// Lengths of two tables that are refused: one or both huge, which are a power of two or would be one in 32 bits.
const TABLES: [(usize, usize); 6] = [
    (HUGE / 8, HUGE / 8),
    (HUGE / 8 + 16, HUGE / 8 + 16),
    (HUGE / 8 + 16, 16),
    (16, HUGE / 8 + 16),
    (0, HUGE / 8),
    (HUGE / 8, 0),
];

#[test]
fn a_refused_fpc_write() {
    let mut slow = Slow::default();
    let (mut f, mut d) = (Mapped::new(HUGE / 8 + 16), Mapped::new(HUGE / 8 + 16));
    let (doubles, mut out) = (Mapped::new(HUGE / 8 + 4), Mapped::new(HUGE));
    for (f_len, d_len) in TABLES {
        let (f, d) = (&mut f[..f_len], &mut d[..d_len]);
        let what = format!("FPC write, tables of {f_len} and {d_len}");
        slow.refused(20, &what, || fpc_write(f, d, &doubles[..4], &mut out[..34]));
        slow.refused(20, &what, || fpc_write(f, d, &doubles, &mut out));
    }
    for (size, len) in [(16, 4097), (16, HUGE / 8), (1024, HUGE / 8 + 4)] {
        let (f, d) = (&mut f[..size], &mut d[..size]);
        let what = format!("FPC write, tables of {size}, {len} doubles");
        slow.refused(21, &what, || fpc_write(f, d, &doubles[..len], &mut out));
    }
    slow.end();
}

#[test]
fn a_refused_fpc_read() {
    let mut slow = Slow::default();
    let (mut f, mut d) = (Mapped::new(HUGE / 8 + 16), Mapped::new(HUGE / 8 + 16));
    let (stream, mut doubles) = (Mapped::new(HUGE + 3), Mapped::new(HUGE / 8));
    for (f_len, d_len) in TABLES {
        let (f, d) = (&mut f[..f_len], &mut d[..d_len]);
        let what = format!("FPC read, tables of {f_len} and {d_len}");
        slow.refused(20, &what, || fpc_read(f, d, &stream[..3], &mut doubles[..2]));
        slow.refused(20, &what, || fpc_read(f, d, &stream, &mut doubles));
    }
    for (size, len) in [(16, 65_537), (16, HUGE), (1024, HUGE + 3)] {
        let (f, d) = (&mut f[..size], &mut d[..size]);
        let what = format!("FPC read, tables of {size}, {len} bytes");
        slow.refused(21, &what, || fpc_read(f, d, &stream[..len], &mut doubles));
    }
    // The first two of the three bytes of a stream, see below.
    let (f, d) = (&mut f[..16], &mut d[..16]);
    slow.refused(23, "FPC read, no stream, huge room", || fpc_read(f, d, &[0x6e, 0x05], &mut doubles));
    slow.end();
}

/// Nor does a call that is done look at room that it does not need. Both predictions of 5 are 0; of 8, fcm's is 5 and dfcm's 5 + 5.
#[test]
fn fpc_with_huge_room() {
    let mut slow = Slow::default();
    let (mut f, mut d) = ([0; 16], [0; 16]);
    let (mut out, mut doubles) = (Mapped::new(HUGE), Mapped::new(HUGE / 8));
    slow.timed("FPC write, huge room", || {
        assert_eq!(fpc_write(&mut f, &mut d, &[5, 8], &mut out), Ok(3));
        assert_eq!(out[..4], [0x6e, 0x05, 0x02, 0]);
    });
    slow.timed("FPC read, huge room", || {
        assert_eq!(fpc_read(&mut f, &mut d, &[0x6e, 0x05, 0x02], &mut doubles), Ok(2));
        assert_eq!(doubles[..3], [5, 8, 0]);
    });
    slow.end();
}

/// A transfer with tables of 16.
fn opened() -> TransferRecord {
    let mut record = TransferRecord::default();
    record.open(&mut [1; 16], &mut [2; 16]).expect("the tables are good");
    record
}

/// A transfer that is damaged: both predictions of the first double are 0.
fn damaged() -> TransferRecord {
    let mut record = opened();
    record
        .piece(&mut [0; 16], &mut [0; 16], &[0xff], &mut [0; 2])
        .expect_err("no double takes the dfcm side");
    record
}

#[test]
fn a_refused_opening() {
    let mut slow = Slow::default();
    let (mut f, mut d) = (Mapped::new(HUGE / 8 + 16), Mapped::new(HUGE / 8 + 16));
    for (f_len, d_len) in TABLES {
        let (f, d) = (&mut f[..f_len], &mut d[..d_len]);
        for record in [TransferRecord::default(), opened(), damaged()] {
            let what = format!("opening, tables of {f_len} and {d_len}, {record:?}");
            slow.refused(20, &what, || {
                let mut record = record;
                record.open(f, d)
            });
        }
    }
    slow.end();
}

/// A closed record with everything huge, the numbers in it too.
#[test]
fn a_piece_of_a_closed_transfer() {
    let mut slow = Slow::default();
    let (mut f, mut d) = (Mapped::new(HUGE / 8 + 16), Mapped::new(HUGE / 8 + 16));
    let (piece, mut doubles) = (Mapped::new(HUGE + 3), Mapped::new(HUGE / 8));
    let huge_size = TransferRecord { size: HUGE / 8, ..opened() };
    let huge_numbers = TransferRecord { size: usize::MAX, h: usize::MAX, g: usize::MAX, ..opened() };
    let huge_held = TransferRecord { state: 2, held: u32::MAX, value: u64::MAX, ..opened() };
    for mut record in [TransferRecord::default(), huge_size, huge_numbers, huge_held] {
        let what = format!("closed record {record:?}");
        slow.refused(25, &what, || record.piece(&mut f, &mut d, &piece, &mut doubles));
        slow.refused(25, &what, || record.piece(&mut f[..16], &mut d[..16], &piece, &mut doubles));
        slow.refused(25, &what, || record.piece(&mut f[..16], &mut d[..16], &piece[..9], &mut doubles));
        slow.refused(25, &what, || record.close());
    }
    slow.end();
}

/// The rows 20, 21, 23 of earlier damage and 22, with everything huge that the rows before them let pass.
#[test]
fn a_refused_piece() {
    let mut slow = Slow::default();
    let (mut f, mut d) = (Mapped::new(HUGE / 8 + 16), Mapped::new(HUGE / 8 + 16));
    let (piece, mut doubles) = (Mapped::new(HUGE + 3), Mapped::new(HUGE / 8));
    for mut record in [opened(), damaged()] {
        for (f_len, d_len) in TABLES {
            let (f, d) = (&mut f[..f_len], &mut d[..d_len]);
            let what = format!("piece, tables of {f_len} and {d_len}");
            slow.refused(20, &what, || record.piece(f, d, &piece[..3], &mut doubles[..6]));
            slow.refused(20, &what, || record.piece(f, d, &piece, &mut doubles));
        }
        let (f, d) = (&mut f[..16], &mut d[..16]);
        for len in [65_537, HUGE, HUGE + 3] {
            let what = format!("piece of {len} bytes");
            slow.refused(21, &what, || record.piece(f, d, &piece[..len], &mut doubles));
            slow.refused(21, &what, || record.piece(f, d, &piece[..len], &mut []));
        }
    }
    let (f, d) = (&mut f[..16], &mut d[..16]);
    let mut record = damaged();
    slow.refused(23, "piece after damage", || record.piece(f, d, &piece[..65_536], &mut doubles));
    slow.refused(23, "piece after damage, no room", || record.piece(f, d, &piece[..65_536], &mut []));
    let mut record = opened();
    slow.refused(22, "piece, short room", || record.piece(f, d, &piece[..65_536], &mut doubles[..131_071]));
    slow.end();
}

/// A piece that is taken in, good or damaged, looks at no room that it does not need.
#[test]
fn a_piece_with_huge_room() {
    let mut slow = Slow::default();
    let mut doubles = Mapped::new(HUGE / 8);
    slow.timed("piece, huge room", || {
        let (mut record, mut f, mut d) = (opened(), [0; 16], [0; 16]);
        assert_eq!(record.piece(&mut f, &mut d, &[0x6e, 0x05, 0x02], &mut doubles), Ok(2));
        assert_eq!((doubles[..3].to_vec(), record.close()), (vec![5, 8, 0], Ok(2)));
    });
    slow.timed("damaged piece, huge room", || {
        let (mut record, mut f, mut d) = (opened(), [0; 16], [0; 16]);
        let damaged = Err(Refusal::Damaged { doubles: 1 });
        assert_eq!(record.piece(&mut f, &mut d, &[0x6e, 0x05, 0x00], &mut doubles), damaged);
    });
    slow.timed("the longest piece, huge room", || {
        let (mut record, mut f, mut d) = (opened(), [0; 16], [0; 16]);
        let damaged = Err(Refusal::Damaged { doubles: 4_096 });
        assert_eq!(record.piece(&mut f, &mut d, &[0x77; 65_536], &mut doubles), damaged);
    });
    slow.end();
}
