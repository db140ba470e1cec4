//! The Rust interface of transfers: texts, tables of every sort, clones, records that are kept, the layout.

use std::mem::offset_of;
use windlassow::{MAX_RUN_LEN, Refusal, Transfer, TransferRecord};

/// The stream of 5 and 8, with tables of any size. Both predictions of 5 are 0. Then F[0] = 5 and D[0] = 5 - 0, and both hashes stay 0,
/// as of all numbers below 2^40: of 8, fcm predicts 5 and dfcm 5 + 5. 8 xor 10 = 2 is less than 8 xor 5 = 13.
const FIVE_AND_EIGHT: [u8; 3] = [0x6e, 0x05, 0x02];

/// Each is had from the library. A closed record has the first for any piece and any close.
#[test]
fn texts_of_the_refusals_of_a_transfer() {
    let (mut f, mut d, mut doubles) = ([0; 16], [0; 16], [0; 8]);
    let closed = TransferRecord::default().close().unwrap_err();
    assert_eq!(closed, Refusal::TransferClosed);
    assert_eq!((closed.number(), closed.needed()), (25, None));
    assert_eq!(closed.to_string(), "the transfer is not open");
    let mut record = TransferRecord::default();
    assert_eq!(record.piece(&mut f, &mut d, &[], &mut doubles), Err(closed));
    record.open(&mut f, &mut d).unwrap();
    let room = record.piece(&mut f, &mut d, &[0x77, 0x66, 0], &mut doubles[..5]).unwrap_err();
    assert_eq!((room.number(), room.needed()), (22, Some(6)));
    assert_eq!(
        room.to_string(),
        "the room is for fewer doubles than twice the piece's bytes: it needs 6 doubles"
    );
    // Two zeros, and then a byte 00 of a double whose code is 7.
    let damaged = record.piece(&mut f, &mut d, &[0x77, 0x66, 0], &mut doubles).unwrap_err();
    assert_eq!(damaged, Refusal::Damaged { doubles: 2 });
    assert_eq!((damaged.number(), damaged.needed()), (23, None));
    assert_eq!(
        damaged.to_string(),
        "what came is not how an FPC stream, for tables of this length, of at most 4,096 doubles begins: 2 doubles of this \
         piece came before the damage"
    );
    let not_whole = record.close().unwrap_err();
    assert_eq!(not_whole, Refusal::NotWhole);
    assert_eq!((not_whole.number(), not_whole.needed()), (23, None));
    assert_eq!(
        not_whole.to_string(),
        "what came is not the whole FPC stream, for tables of this length, of any run of at most 4,096 doubles"
    );
    assert_eq!(record, TransferRecord::default());
}

/// Feeds the stream of 5 and 8 byte by byte, with an empty piece and one that there is no room for in between.
fn five_and_eight<T: AsMut<[u64]>>(f: T, d: T) {
    let mut transfer = Transfer::open(f, d).unwrap();
    let mut doubles = [9; 2];
    assert_eq!(transfer.doubles(), 0);
    assert_eq!(transfer.feed(&FIVE_AND_EIGHT[..1], &mut doubles), Ok(0));
    assert_eq!((transfer.doubles(), doubles), (0, [9, 9]));
    assert_eq!(transfer.feed(&FIVE_AND_EIGHT[1..2], &mut doubles), Ok(1));
    assert_eq!((transfer.doubles(), doubles), (1, [5, 9]));
    assert_eq!(transfer.feed(&[], &mut []), Ok(0));
    let short = transfer.feed(&FIVE_AND_EIGHT[2..], &mut doubles[..1]);
    assert_eq!((short, transfer.doubles()), (Err(Refusal::PieceRoom { needed: 2 }), 1));
    assert_eq!(transfer.feed(&FIVE_AND_EIGHT[2..], &mut doubles), Ok(1));
    assert_eq!((transfer.doubles(), doubles), (2, [8, 9]));
    assert_eq!(transfer.finish(), Ok(2));
}

/// Lent tables can be looked at afterwards: they stand as after 8, of which F[0] = 8 and D[0] = 8 - 5.
#[test]
fn a_transfer_over_arrays_vectors_and_lent_tables() {
    five_and_eight([7; 16], [7; 16]);
    five_and_eight([7; 1024], [7; 1024]);
    five_and_eight(vec![7; 64], vec![7; 64]);
    let (mut f, mut d) = ([7; 32], vec![7; 32]);
    five_and_eight(&mut f[..], &mut d[..]);
    assert_eq!((f[0], d[0]), (8, 3));
    assert!(f[1..].iter().chain(&d[1..]).all(|&entry| entry == 0));
    assert_eq!(Transfer::open(&mut f[..], &mut d[..16]).unwrap_err(), Refusal::InvalidTables);
    assert_eq!(Transfer::open(vec![], vec![]).unwrap_err(), Refusal::InvalidTables);
    assert_eq!((f[0], d[0]), (8, 3));
}

/// 5 and 8, and then 66 and 00: a double with code 6 that has code 7. The tables stand as after 8, and the room past both is as it was.
/// A later piece changes nothing.
#[test]
fn damage_leaves_what_came_before_it() {
    let (mut f, mut d, mut doubles) = ([7; 16], [7; 16], [9; 12]);
    let mut record = TransferRecord::default();
    record.open(&mut f, &mut d).unwrap();
    let stream = [&FIVE_AND_EIGHT[..], &[0x66, 0x00, 0x77]].concat();
    let damaged = record.piece(&mut f, &mut d, &stream, &mut doubles);
    assert_eq!(damaged, Err(Refusal::Damaged { doubles: 2 }));
    let later = record.piece(&mut f, &mut d, &[0x77], &mut doubles);
    assert_eq!(later, Err(Refusal::Damaged { doubles: 0 }));
    assert_eq!((record.given, &doubles[..]), (2, &[5, 8, 9, 9, 9, 9, 9, 9, 9, 9, 9, 9][..]));
    assert_eq!((f[0], d[0]), (8, 3));
    assert!(f[1..].iter().chain(&d[1..]).all(|&entry| entry == 0));
}

/// After 5 one goes on with 8 and the other with 9: 9 xor 10 = 3 is less than 9 xor 5 = 12. Then F[0] is the last double, so that
/// code 7 repeats it.
#[test]
fn a_clone_of_a_transfer_goes_on_by_itself() {
    let mut transfer = Transfer::open(vec![0; 16], vec![0; 16]).unwrap();
    let mut doubles = [0; 4];
    assert_eq!(transfer.feed(&[0x6e, 0x05], &mut doubles), Ok(1));
    let mut clone = transfer.clone();
    assert_eq!((transfer.feed(&[0x02], &mut doubles), doubles[0]), (Ok(1), 8));
    assert_eq!((transfer.doubles(), clone.doubles()), (2, 1));
    assert_eq!((clone.feed(&[0x03], &mut doubles), doubles[0]), (Ok(1), 9));
    assert_eq!((transfer.feed(&[0x77], &mut doubles), &doubles[..2]), (Ok(2), &[8, 8][..]));
    assert_eq!((clone.feed(&[0x76, 0x00], &mut doubles), doubles[0]), (Ok(1), 9));
    assert_eq!((transfer.finish(), clone.finish()), (Ok(4), Ok(3)));
}

/// After 5 half byte 6 in second place: with 02 it is 5 xor 2 = 7, and 2 is less than 7 xor 10 = 13. With 00 it is the odd end.
#[test]
fn half_byte_6_in_second_place() {
    let mut transfer = Transfer::open([0; 16], [0; 16]).unwrap();
    let mut doubles = [0; 4];
    assert_eq!((transfer.feed(&[0x66, 0x05], &mut doubles), doubles[0]), (Ok(1), 5));
    let mut odd = transfer.clone();
    assert_eq!((transfer.feed(&[0x02], &mut doubles), doubles[0]), (Ok(1), 7));
    assert_eq!(odd.clone().finish(), Err(Refusal::NotWhole));
    assert_eq!(odd.feed(&[0x00], &mut doubles), Ok(0));
    assert_eq!((transfer.finish(), odd.finish()), (Ok(2), Ok(1)));
}

/// A record as bytes, in the order of its fields.
fn to_bytes(record: &TransferRecord) -> Vec<u8> {
    let TransferRecord { state, given, pair, held, value, last, size, h, g } = *record;
    let mut bytes = [state, given, pair, held].map(u32::to_ne_bytes).concat();
    bytes.extend([value, last, size as u64, h as u64, g as u64].map(u64::to_ne_bytes).concat());
    bytes
}

/// The record that these bytes are.
fn from_bytes(bytes: &[u8]) -> TransferRecord {
    let (four, eight) = bytes.split_at(16);
    let four: Vec<u32> =
        four.chunks_exact(4).map(|bytes| u32::from_ne_bytes(bytes.try_into().unwrap())).collect();
    let eight: Vec<u64> =
        eight.chunks_exact(8).map(|bytes| u64::from_ne_bytes(bytes.try_into().unwrap())).collect();
    let [state, given, pair, held] = four[..] else { panic!("{} numbers of 32 bits", four.len()) };
    let [value, last, size, h, g] = eight[..] else { panic!("{} numbers of 64 bits", eight.len()) };
    TransferRecord {
        state,
        given,
        pair,
        held,
        value,
        last,
        size: size as usize,
        h: h as usize,
        g: g as usize,
    }
}

/// After every byte the record and both tables are kept elsewhere, and others are used in their place for another transfer.
///
/// 1.0 is P11's: both predictions are 0. Its upper 16 bits are 0x3ff0, a multiple of 16, so that h stays 0, and its upper 24 bits
/// 0x3ff000, so that g does too. Code 7 repeats it. Of 1.0 again, t = 0 and D[0] = 0. 5 then has the xors 5 xor 1.0 with both, so
/// fcm is taken with code 0 and eight bytes, 05 and those of 1.0; and the odd end follows.
#[test]
fn a_record_kept_with_its_tables_goes_on_where_it_stood() {
    let stream = [0x07, 0, 0, 0, 0, 0, 0, 0xf0, 0x3f, 0x06, 0x05, 0, 0, 0, 0, 0, 0xf0, 0x3f, 0x00];
    let one = 1.0f64.to_bits();
    let (mut f, mut d) = (vec![0; 16], vec![0; 16]);
    let mut record = TransferRecord::default();
    record.open(&mut f, &mut d).unwrap();
    let mut all = Vec::new();
    for byte in stream {
        let mut doubles = [0; 2];
        let given = record.piece(&mut f, &mut d, &[byte], &mut doubles).unwrap();
        all.extend_from_slice(&doubles[..given]);
        let kept = (to_bytes(&record), f.clone(), d.clone());
        f.fill(u64::MAX);
        d.fill(u64::MAX);
        record.open(&mut f, &mut d).unwrap();
        assert_eq!(record.piece(&mut f, &mut d, &[0x6e, 0x05, 0x02], &mut [0; 6]), Ok(2));
        assert_eq!(record.close(), Ok(2));
        (f, d) = (kept.1, kept.2);
        record = from_bytes(&kept.0);
        assert_eq!(record.given as usize, all.len());
    }
    assert_eq!(all, [one, one, 5]);
    assert_eq!(record.close(), Ok(3));
}

/// The record is the header's: `c/constants.c` has the same numbers.
#[test]
fn the_layout_of_a_record() {
    assert_eq!((size_of::<TransferRecord>(), align_of::<TransferRecord>()), (56, 8));
    assert_eq!(
        [
            offset_of!(TransferRecord, state),
            offset_of!(TransferRecord, given),
            offset_of!(TransferRecord, pair),
            offset_of!(TransferRecord, held),
            offset_of!(TransferRecord, value),
            offset_of!(TransferRecord, last),
            offset_of!(TransferRecord, size),
            offset_of!(TransferRecord, h),
            offset_of!(TransferRecord, g),
        ],
        [0, 4, 8, 12, 16, 24, 32, 40, 48]
    );
}

/// A failed opening closes an open record; an opening of an open one starts anew; other tables than the opening's are refused.
#[test]
fn a_record_opened_again() {
    let (mut f, mut d, mut doubles) = ([0; 32], [0; 32], [0; 4]);
    let mut record = TransferRecord::default();
    record.open(&mut f[..16], &mut d[..16]).unwrap();
    assert_eq!(record.piece(&mut f[..16], &mut d[..16], &[0x77], &mut doubles), Ok(2));
    assert_eq!(record.piece(&mut f, &mut d, &[0x77], &mut doubles), Err(Refusal::InvalidTables));
    record.open(&mut f, &mut d).unwrap();
    assert_eq!((record.given, record.size), (0, 32));
    assert_eq!(record.piece(&mut f, &mut d, &[0x77], &mut doubles), Ok(2));
    assert_eq!(record.open(&mut f, &mut d[..16]), Err(Refusal::InvalidTables));
    assert_eq!(record, TransferRecord::default());
    assert_eq!(record.close(), Err(Refusal::TransferClosed));
}

/// Pairs of zeros, a byte each: the run of the most doubles is whole, and any byte after it is damage.
#[test]
fn the_most_doubles_of_a_transfer() {
    let mut transfer = Transfer::open([0; 16], [0; 16]).unwrap();
    let mut doubles = vec![9; MAX_RUN_LEN];
    assert_eq!(transfer.feed(&vec![0x77; MAX_RUN_LEN / 2], &mut doubles), Ok(MAX_RUN_LEN));
    assert!(doubles.iter().all(|&double| double == 0));
    assert_eq!(transfer.clone().finish(), Ok(MAX_RUN_LEN));
    assert_eq!(transfer.feed(&[0x77], &mut doubles[..1]), Err(Refusal::PieceRoom { needed: 2 }));
    assert_eq!(transfer.feed(&[0x77], &mut doubles), Err(Refusal::Damaged { doubles: 0 }));
    assert_eq!((transfer.doubles(), transfer.finish()), (MAX_RUN_LEN, Err(Refusal::NotWhole)));
}
