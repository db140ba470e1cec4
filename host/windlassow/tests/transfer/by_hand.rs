//! Transfers worked out by hand, on the library alone.

use crate::compare::reply_of;
use reference::FpcReply;
use windlassow::{Transfer, TransferRecord};

const ONE: u64 = 0x3FF0_0000_0000_0000;

/// What a piece has to give: its answer, and doubles.
type Given<'a> = (u32, &'a [u64]);

/// Sends the pieces with just enough room, each of which gives what stands beside it, and then closes.
fn is_transfer(size: usize, pieces: &[(&[u8], Given)], close: (u32, u32)) -> (Vec<u64>, Vec<u64>) {
    let (mut f, mut d) = (vec![7; size], vec![8; size]);
    let mut record = TransferRecord::default();
    record.open(&mut f, &mut d).expect("the tables are good");
    for (k, &(bytes, (answer, given))) in pieces.iter().enumerate() {
        let mut doubles = vec![99; 2 * bytes.len()];
        let reply = reply_of(record.piece(&mut f, &mut d, bytes, &mut doubles));
        assert_eq!(reply, FpcReply { answer, count: given.len() as u32 }, "piece {k}, {bytes:x?}");
        assert_eq!(doubles[..given.len()], *given, "piece {k}, {bytes:x?}");
        assert!(doubles[given.len()..].iter().all(|&v| v == 99), "piece {k}, {bytes:x?}");
    }
    let reply = reply_of(record.close());
    assert_eq!(reply, FpcReply { answer: close.0, count: close.1 }, "close after {pieces:x?}");
    assert_eq!(record, TransferRecord::default());
    (f, d)
}

/// The same for a stream in single bytes: the doubles that come with the byte of each place, and from which place on there is
/// damage.
fn is_byte_by_byte(stream: &[u8], at: &[(usize, &[u64])], damage: Option<usize>, close: (u32, u32)) {
    let given = |place: usize| at.iter().find(|entry| entry.0 == place).map_or(&[][..], |entry| entry.1);
    let answer = |place| if damage.is_some_and(|first| place >= first) { 23 } else { 0 };
    let places = 0..stream.len();
    let pieces: Vec<(&[u8], Given)> =
        places.map(|place| (&stream[place..=place], (answer(place), given(place)))).collect();
    is_transfer(16, &pieces, close);
    // All in one piece, and cut in two at each place.
    let all: Vec<u64> = at.iter().flat_map(|entry| entry.1).copied().collect();
    let end = damage.map_or(0, |_| 23);
    is_transfer(16, &[(stream, (end, &all))], close);
    for cut in 0..=stream.len() {
        let before: Vec<u64> =
            at.iter().filter(|entry| entry.0 < cut).flat_map(|entry| entry.1).copied().collect();
        let first_answer = if damage.is_some_and(|first| first < cut) { 23 } else { 0 };
        let pieces =
            [(&stream[..cut], (first_answer, &before[..])), (&stream[cut..], (end, &all[before.len()..]))];
        is_transfer(16, &pieces, close);
    }
}

/// P10: nothing, in no piece and in empty ones; 0.0; and twice.
#[test]
fn zeros() {
    is_transfer(16, &[], (0, 0));
    is_transfer(16, &[(&[], (0, &[])), (&[], (0, &[]))], (0, 0));
    is_byte_by_byte(&[0x76, 0x00], &[(0, &[0])], None, (0, 1));
    is_byte_by_byte(&[0x77], &[(0, &[0, 0])], None, (0, 2));
    is_byte_by_byte(&[0x77, 0x76, 0x00], &[(0, &[0, 0]), (1, &[0])], None, (0, 3));
    // The second double or the odd end is missing.
    is_byte_by_byte(&[0x77, 0x76], &[(0, &[0, 0]), (1, &[0])], None, (23, 0));
}

/// P11: 1.0 has eight bytes after the pair's. With the last of them the second 1.0, which has none, is known too.
#[test]
fn ones() {
    let once = [0x06, 0, 0, 0, 0, 0, 0, 0xf0, 0x3f, 0x00];
    is_byte_by_byte(&once, &[(8, &[ONE])], None, (0, 1));
    let twice = [0x07, 0, 0, 0, 0, 0, 0, 0xf0, 0x3f];
    is_byte_by_byte(&twice, &[(8, &[ONE, ONE])], None, (0, 2));
    // Every byte but the last one or two: 1.0 alone is not a stream without its odd end.
    (1..9).for_each(|end| is_byte_by_byte(&twice[..end], &[], None, (23, 0)));
    is_byte_by_byte(&once[..9], &[(8, &[ONE])], None, (23, 0));
}

/// P12: 66 00 00. In the first place half byte 6 and byte 00 are a double, and the rules code it with half byte 7.
#[test]
fn a_zero_byte_in_the_first_place() {
    is_byte_by_byte(&[0x66, 0x00, 0x00], &[], Some(1), (23, 0));
    is_byte_by_byte(&[0x67, 0x00], &[], Some(1), (23, 0));
    is_byte_by_byte(&[0x77, 0x67, 0x00], &[(0, &[0, 0])], Some(2), (23, 0));
}

/// In the second place they are the odd end. Any byte after it is damage, an empty piece is not.
#[test]
fn the_odd_end() {
    is_byte_by_byte(&[0x66, 0x05, 0x00], &[(1, &[5])], None, (0, 1));
    is_byte_by_byte(&[0x66, 0x05], &[(1, &[5])], None, (23, 0));
    for after in [0x00, 0x66, 0x76, 0x77, 0xff] {
        is_byte_by_byte(&[0x66, 0x05, 0x00, after], &[(1, &[5])], Some(3), (23, 0));
        is_byte_by_byte(&[0x66, 0x05, 0x00, after, 0x77], &[(1, &[5])], Some(3), (23, 0));
    }
    let pieces: [(&[u8], Given); 4] =
        [(&[0x66, 0x05], (0, &[5])), (&[], (0, &[])), (&[0x00], (0, &[])), (&[], (0, &[]))];
    let (f, d) = is_transfer(16, &pieces, (0, 1));
    assert_eq!((f, d), (table(&[(0, 5)]), table(&[(0, 5)])));
}

/// On the dfcm side half byte 14 and byte 00 are a double, and the rules code it with half byte 15.
#[test]
fn a_zero_byte_on_the_dfcm_side() {
    is_byte_by_byte(&[0x6e, 0x05, 0x00], &[(1, &[5])], Some(2), (23, 0));
    is_byte_by_byte(&[0x6f, 0x05], &[(1, &[5, 10])], None, (0, 2));
}

/// After 5 fcm predicts 5 and dfcm 10. 8 xor 5 is 13 and 8 xor 10 is 2; 6 xor 5 is 3 and 6 xor 10 is 12.
#[test]
fn the_side_of_the_smaller_xor() {
    is_byte_by_byte(&[0x6e, 0x05, 0x02], &[(1, &[5]), (2, &[8])], None, (0, 2));
    is_byte_by_byte(&[0x66, 0x05, 0x03], &[(1, &[5]), (2, &[6])], None, (0, 2));
    is_byte_by_byte(&[0x66, 0x05, 0x0d], &[(1, &[5])], Some(2), (23, 0));
    is_byte_by_byte(&[0x6e, 0x05, 0x0c], &[(1, &[5])], Some(2), (23, 0));
    // 5 itself, from the side that predicts 10.
    is_byte_by_byte(&[0x6e, 0x05, 0x0f], &[(1, &[5])], Some(2), (23, 0));
}

/// Both sides predict 0: the fcm side is taken. Half bytes without bytes are complete at once.
#[test]
fn the_side_on_a_tie() {
    is_byte_by_byte(&[0xf7], &[], Some(0), (23, 0));
    is_byte_by_byte(&[0xff, 0x77], &[], Some(0), (23, 0));
    is_byte_by_byte(&[0x7f], &[(0, &[0])], Some(0), (23, 0));
    is_byte_by_byte(&[0x77, 0x7f, 0x77], &[(0, &[0, 0]), (1, &[0])], Some(1), (23, 0));
    is_byte_by_byte(&[0x67, 0x07, 0x76, 0x00], &[(1, &[7, 7]), (2, &[7])], None, (0, 3));
    is_byte_by_byte(&[0x67, 0x07, 0xf7], &[(1, &[7, 7])], Some(2), (23, 0));
}

/// No first double has the dfcm side, but that is damage only when all its bytes are there.
#[test]
fn half_bytes_that_no_double_can_have() {
    for (half, bytes) in [(8, 8), (9, 7), (10, 6), (11, 5), (12, 3), (13, 2), (14, 1)] {
        let stream = [&[half << 4 | 7][..], &vec![0x81; bytes], &[0x77]].concat();
        is_byte_by_byte(&stream, &[], Some(bytes), (23, 0));
        for end in 1..=bytes {
            is_byte_by_byte(&stream[..end], &[], None, (23, 0));
        }
        let second = [&[0x70 | half][..], &vec![0x81; bytes], &[0x77]].concat();
        is_byte_by_byte(&second, &[(0, &[0])], Some(bytes), (23, 0));
    }
}

/// Four leading zero bytes count as three. Five have a code of their own, which shows with the fifth byte only.
#[test]
fn leading_zero_bytes() {
    is_byte_by_byte(&[0x36, 1, 2, 3, 4, 0, 0], &[(5, &[0x0403_0201])], None, (0, 1));
    is_byte_by_byte(&[0x36, 1, 2, 3, 4, 5, 0], &[(5, &[0x05_0403_0201])], None, (0, 1));
    is_byte_by_byte(&[0x36, 1, 2, 3, 0, 0, 0], &[], Some(5), (23, 0));
    is_byte_by_byte(&[0x46, 1, 2, 3, 0], &[(3, &[0x03_0201])], None, (0, 1));
    is_byte_by_byte(&[0x46, 1, 2, 0, 0], &[], Some(3), (23, 0));
    is_byte_by_byte(&[0x56, 1, 0, 0], &[], Some(2), (23, 0));
    is_byte_by_byte(&[0x06, 1, 2, 3, 4, 5, 6, 7, 0, 0], &[], Some(8), (23, 0));
}

/// A table of 16 in which all entries are 0 but these.
fn table(entries: &[(usize, u64)]) -> Vec<u64> {
    let mut table = vec![0; 16];
    entries.iter().for_each(|&(place, value)| table[place] = value);
    table
}

/// The patterns of 100.0 to 103.0: the hash of the fcm side is 0 and then 9, that of the dfcm side 0, since the difference of the
/// first two is a multiple of 2^46 and so is the first. The pair's byte ff gives the third and the fourth.
#[test]
fn tables_between_pieces() {
    let v = [100.0f64, 101.0, 102.0, 103.0].map(f64::to_bits);
    let step = 0x0000_4000_0000_0000;
    let first = [0x00, 0, 0, 0, 0, 0, 0, 0x59, 0x40];
    let second = [0, 0, 0, 0, 0, 0x40, 0x59, 0x40];
    let pieces: [(&[u8], Given); 3] =
        [(&first, (0, &v[..1])), (&second, (0, &v[1..2])), (&[0xff], (0, &v[2..]))];
    let tables_after = |count: usize, close| is_transfer(16, &pieces[..count], close);
    assert_eq!(tables_after(1, (23, 0)), (table(&[(0, v[0])]), table(&[(0, v[0])])));
    assert_eq!(tables_after(2, (0, 2)), (table(&[(0, v[0]), (9, v[1])]), table(&[(0, step)])));
    assert_eq!(tables_after(3, (0, 4)), (table(&[(0, v[0]), (9, v[3])]), table(&[(0, step)])));
}

/// Damage leaves the tables as after the doubles before it.
#[test]
fn tables_after_damage() {
    let five = (table(&[(0, 5)]), table(&[(0, 5)]));
    assert_eq!(is_transfer(16, &[(&[0x6e, 0x05, 0x0c], (23, &[5]))], (23, 0)), five);
    let pieces: [(&[u8], Given); 3] =
        [(&[0x6e, 0x05], (0, &[5])), (&[0x0c, 0x77], (23, &[])), (&[0x77], (23, &[]))];
    assert_eq!(is_transfer(16, &pieces, (23, 0)), five);
    // 5 and 8, then a pair whose first double is damaged.
    let eight = (table(&[(0, 8)]), table(&[(0, 3)]));
    assert_eq!(is_transfer(16, &[(&[0x6e, 0x05, 0x02, 0x67, 0x00, 0x77], (23, &[5, 8]))], (23, 0)), eight);
}

/// The safe interface with the tables in it: the doubles so far, and a transfer that goes on after refused pieces.
#[test]
fn the_interface_with_tables() {
    let mut transfer = Transfer::open([7; 16], [8; 16]).unwrap();
    let mut doubles = [99; 4];
    assert_eq!(reply_of(transfer.feed(&[0x6e], &mut doubles[..1])), FpcReply { answer: 22, count: 2 });
    assert_eq!(reply_of(transfer.feed(&[0x6e], &mut doubles[..2])), FpcReply::done(0));
    assert_eq!(reply_of(transfer.feed(&[0x77; 65_537], &mut doubles)), FpcReply::refused(21));
    assert_eq!(transfer.doubles(), 0);
    assert_eq!(reply_of(transfer.feed(&[0x05, 0x02], &mut doubles)), FpcReply::done(2));
    assert_eq!((transfer.doubles(), doubles), (2, [5, 8, 99, 99]));
    assert_eq!(reply_of(transfer.finish()), FpcReply::done(2));
}

/// 4,096 doubles are as many as there can be.
#[test]
fn as_many_doubles_as_there_can_be() {
    let (zeros, bytes) = ([0; 4096], [0x77; 2048]);
    is_transfer(16, &[(&bytes, (0, &zeros))], (0, 4096));
    is_transfer(16, &[(&bytes, (0, &zeros)), (&[], (0, &[]))], (0, 4096));
    is_transfer(16, &[(&bytes[1..], (0, &zeros[2..])), (&[0x77], (0, &[0, 0]))], (0, 4096));
    for after in [0x00, 0x66, 0x76, 0x77] {
        is_transfer(16, &[(&bytes, (0, &zeros)), (&[after], (23, &[])), (&[], (23, &[]))], (23, 0));
        let longer = [&bytes[..], &[after]].concat();
        is_transfer(16, &[(&longer, (23, &zeros))], (23, 0));
    }
    let odd = [&bytes[1..], &[0x76, 0x00]].concat();
    is_transfer(16, &[(&odd, (0, &zeros[1..]))], (0, 4095));
    is_transfer(16, &[(&odd, (0, &zeros[1..])), (&[0x77], (23, &[]))], (23, 0));
}
