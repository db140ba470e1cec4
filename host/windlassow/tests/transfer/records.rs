//! Records of any numbers: which count as closed, and what an open one holds.

use crate::common::*;
use crate::compare::*;
use crate::cuts::any_cut;
use crate::fit::*;
use crate::make::*;
use reference::FpcReply;
use reference::fpc::stream_of;
use windlassow::TransferRecord;

/// A piece and a close of a record as it is, with tables of any content. A record that is not fit has 25 from both, and nothing
/// changes. Gives the answer of the piece.
fn try_record(random: &mut Random, record: TransferRecord, size: usize) -> u32 {
    let (f, d) = (lent_table(random, size), lent_table(random, size));
    let (mut f, mut d) = (Guarded::new(&f, 1), Guarded::new(&d, 2));
    let len = random.below(20);
    let bytes = if random.once_in(3) { vec![0x77; len] } else { random.bytes(len) };
    let mut doubles = Guarded::new(&vec![99; 2 * len], 3);
    let mut lent = Guarded::new(&[record], GUARD);
    let given = reply_of(lent[0].piece(&mut f, &mut d, &bytes, &mut doubles));
    assert!(f.is_intact() && d.is_intact() && doubles.is_intact() && lent.is_intact(), "{record:?}");
    if is_fit(&record) && record.size == size {
        assert!(given.answer == 0 || given.answer == 23, "{given:?} of {record:?}");
        assert!(is_fit(&lent[0]) && lent[0].size == size, "{:?} after {record:?}", lent[0]);
        assert_eq!(lent[0].given, record.given + given.count, "{record:?}");
        assert_eq!(lent[0].state == DAMAGED, given.answer == 23, "{record:?}");
        assert!(doubles[given.count as usize..].iter().all(|&v| v == 99), "{record:?}");
    } else {
        assert_eq!(given, FpcReply::refused(if is_fit(&record) { 20 } else { 25 }), "{record:?}");
    }
    if given.answer == 25 || given.answer == 20 || record.state == DAMAGED {
        assert!(lent.is_unchanged() && f.is_unchanged() && d.is_unchanged(), "{record:?}");
        assert!(doubles.is_unchanged() && given.count == 0, "{record:?}");
    }
    if !is_fit(&record) {
        // 25 comes first, whatever else is wrong.
        let given = reply_of(lent[0].piece(&mut f, &mut d[..8], &[0; 3], &mut doubles[..0]));
        assert!(given == FpcReply::refused(25) && lent.is_unchanged() && f.is_unchanged(), "{record:?}");
    }
    try_close(record);
    given.answer
}

/// A close of a record as it is: done where a whole stream can have ended.
fn try_close(record: TransferRecord) {
    let mut lent = Guarded::new(&[record], GUARD);
    let given = reply_of(lent[0].close());
    assert!(lent.is_intact(), "{record:?}");
    if !is_fit(&record) {
        assert_eq!(given, FpcReply::refused(25), "{record:?}");
        assert!(lent.is_unchanged(), "{record:?}");
    } else {
        let is_whole = record.state == AT_PAIR || record.state == AFTER_END;
        let expected = if is_whole { FpcReply::done(record.given as usize) } else { FpcReply::refused(23) };
        assert_eq!((given, lent[0]), (expected, TransferRecord::default()), "{record:?}");
    }
}

/// A record of zeros, of ones, and of any bits, which hardly ever are those of an open one.
#[test]
fn zeros_ones_and_noise() {
    let mut random = Random::new(251);
    let ones = TransferRecord {
        state: u32::MAX,
        given: u32::MAX,
        pair: u32::MAX,
        held: u32::MAX,
        value: u64::MAX,
        last: u64::MAX,
        size: usize::MAX,
        h: usize::MAX,
        g: usize::MAX,
    };
    for size in SIZES {
        assert_eq!(try_record(&mut random, TransferRecord::default(), size), 25);
        assert_eq!(try_record(&mut random, ones, size), 25);
    }
    for _ in 0..rounds(20_000) {
        let record = noise(&mut random);
        let size = random.pick(&SIZES);
        assert_eq!(try_record(&mut random, record, size), 25, "{record:?}");
    }
}

/// 56 bytes of any content.
pub fn noise(random: &mut Random) -> TransferRecord {
    TransferRecord {
        state: random.word(),
        given: random.word(),
        pair: random.word(),
        held: random.word(),
        value: random.bits(),
        last: random.bits(),
        size: random.bits() as usize,
        h: random.bits() as usize,
        g: random.bits() as usize,
    }
}

/// Any numbers of about the right size: many records are fit, in every state, and many are not.
#[test]
fn small_numbers() {
    let mut random = Random::new(252);
    let mut answers = Answers::none();
    let mut fit_of_state = [0; 8];
    for _ in 0..rounds(150_000) {
        let size = random.pick(&SIZES);
        let held = random.pick(&[0, 0, 1, 2, 3, 5, 7, 8, 9]);
        let value_bits = random.pick(&[0, 8 * held.min(8), 8 * held.min(8) + 1, 64]).min(64);
        let any_given = random.word_below(4_100);
        let record = TransferRecord {
            state: random.word_below(8),
            given: random.pick(&[0, 1, 2, 4_094, 4_095, 4_096, 4_097, any_given]),
            pair: if random.once_in(10) { random.word() } else { random.word_below(260) },
            held,
            value: if value_bits == 0 { 0 } else { random.bits() >> (64 - value_bits) },
            last: random.bits(),
            size: random.pick(&[size, size, size, 8, 17, 2_048]),
            h: random.below(size + 2),
            g: random.below(size + 2),
        };
        if is_fit(&record) {
            fit_of_state[record.state as usize] += 1;
        }
        answers.count(try_record(&mut random, record, size));
    }
    answers.must_include(&[0, 23, 25]);
    assert!(
        fit_of_state[1..=5].iter().all(|&count| count > 100),
        "fit records of each state: {fit_of_state:?}"
    );
    assert!(fit_of_state[0] == 0 && fit_of_state[6..] == [0, 0], "{fit_of_state:?}");
}

/// Lengths that no tables have.
const BAD_SIZES: [usize; 16] =
    [0, 1, 2, 4, 8, 15, 17, 24, 48, 1_023, 1_025, 2_048, 4_096, 1 << 32, 1 << 32 | 16, usize::MAX];

/// The records that one field makes of an open one: every value at a limit of that field.
fn changed(record: &TransferRecord) -> Vec<TransferRecord> {
    let mut all = Vec::new();
    let mut with = |change: &dyn Fn(&mut TransferRecord)| {
        let mut changed = *record;
        change(&mut changed);
        all.push(changed);
    };
    let around = |n: u32| [0, 1, n.wrapping_sub(1), n.wrapping_add(1), n ^ 1, u32::MAX, n | 1 << 31];
    for state in (0..=8).chain([u32::MAX, record.state | 1 << 16]) {
        with(&|changed| changed.state = state);
    }
    for given in around(record.given).into_iter().chain([4_093, 4_094, 4_095, 4_096, 4_097, 4_098]) {
        with(&|changed| changed.given = given);
    }
    for pair in (0..=256).chain([257, record.pair | 256, record.pair | 1 << 31, u32::MAX]) {
        with(&|changed| changed.pair = pair);
    }
    for held in (0..=9).chain(around(record.held)).chain([16, 256, 1 << 31]) {
        with(&|changed| changed.held = held);
    }
    for bits in 0..64 {
        with(&|changed| changed.value = 1 << bits);
        with(&|changed| changed.value = (1 << bits) - 1);
        with(&|changed| changed.last = 1 << bits);
    }
    with(&|changed| changed.value = u64::MAX);
    let size = record.size;
    for index in [0, 1, size - 1, size, size + 1, 2 * size, 1 << 32, 1 << 63, usize::MAX] {
        with(&|changed| changed.h = index);
        with(&|changed| changed.g = index);
    }
    for size in SIZES.into_iter().chain(BAD_SIZES) {
        with(&|changed| changed.size = size);
    }
    all
}

/// Open records in every state and with each double in hand, one field changed.
#[test]
fn open_records_with_one_field_changed() {
    let mut random = Random::new(253);
    let mut answers = Answers::none();
    let mut states = [0; 6];
    for _ in 0..rounds(24) {
        let size = random.pick(&SIZES);
        let run = near_predictions(&mut random, size, 4);
        let (stream, _) = stream_of(size, &run[..random.pick(&[3, 4])]);
        for end in 0..=stream.len() + 1 {
            // The byte after the stream is damage if that has an odd end.
            let bytes = [&stream[..], &[0x77]].concat()[..end].to_vec();
            let mut transfer = Compared::opened(&mut random, size);
            transfer.piece(&bytes, 2 * bytes.len());
            let record = transfer.record();
            states[record.state as usize] += 1;
            for changed in changed(&record) {
                answers.count(try_record(&mut random, changed, size));
                if changed.size != size && SIZES.contains(&changed.size) {
                    answers.count(try_record(&mut random, changed, changed.size));
                }
            }
        }
    }
    answers.must_include(&[0, 20, 23, 25]);
    assert!(states[1..].iter().all(|&count| count > 0), "records of each state: {states:?}");
}

/// What the fields of a record say of the bytes that came and the doubles that they gave. The pair of a damaged one may be any.
fn described(size: usize, bytes: &[u8], doubles: &[u64], is_damaged: bool, pair: u32) -> TransferRecord {
    let mut record = TransferRecord { state: AT_PAIR, size, ..Default::default() };
    for &v in doubles {
        record.h = ((record.h as u64 * 64) ^ (v >> 48)) as usize % size;
        let difference = v.wrapping_sub(record.last);
        record.g = ((record.g as u64 * 4) ^ (difference >> 40)) as usize % size;
        record.last = v;
    }
    record.given = doubles.len() as u32;
    if is_damaged {
        return TransferRecord { state: DAMAGED, pair, ..record };
    }
    // The bytes after those of the doubles.
    let mut rest = bytes;
    for k in 0..doubles.len() {
        if k % 2 == 0 {
            (record.pair, rest) = (rest[0].into(), &rest[1..]);
        }
        let half = if k % 2 == 0 { record.pair >> 4 } else { record.pair & 15 };
        rest = &rest[bytes_of_half(half) as usize..];
    }
    match (doubles.len() % 2, rest) {
        (0, []) => return record,
        (0, [first, others @ ..]) => {
            (record.state, record.pair, rest) = (IN_FIRST, u32::from(*first), others)
        }
        (_, [0]) if record.pair & 15 == 6 => return TransferRecord { state: AFTER_END, ..record },
        _ => record.state = IN_SECOND,
    }
    record.held = rest.len() as u32;
    record.value = rest.iter().rev().fold(0, |value, &byte| value << 8 | u64::from(byte));
    record
}

/// After each piece the record holds what its fields say, for good and for damaged streams.
#[test]
fn the_fields_of_a_record() {
    let mut random = Random::new(254);
    let mut states = [0; 6];
    for _ in 0..rounds(800) {
        let size = random.pick(&SIZES);
        let (maker, len) = (random.below(MAKERS), random.below(12));
        let run = run(&mut random, maker, size, len);
        let (mut stream, _) = stream_of(size, &run);
        if random.once_in(3) {
            stream.extend([random.byte(), 0x77]);
        }
        let mut transfer = Compared::opened(&mut random, size);
        let count = random.below(stream.len() + 1);
        for piece in any_cut(&mut random, &stream, count) {
            transfer.piece(piece, 2 * piece.len());
            let record = transfer.record();
            let expected =
                described(size, &transfer.bytes, &transfer.doubles, transfer.is_damaged(), record.pair);
            assert_eq!(record, expected, "after {}", shown(&transfer.bytes));
            states[record.state as usize] += 1;
        }
    }
    assert!(states[1..].iter().all(|&count| count > 0), "records of each state: {states:?}");
}

/// A record that was written down, here from what its fields mean, goes on as if the transfer had come to it: P11's ninth byte, the
/// second double of 5 8, and the odd end.
#[test]
fn records_written_by_hand() {
    let open = TransferRecord { state: AT_PAIR, size: 16, ..Default::default() };
    let one = 0x3FF0_0000_0000_0000;
    let first = TransferRecord { state: IN_FIRST, pair: 0x07, held: 7, value: 0xF0 << 48, ..open };
    let second = TransferRecord { state: IN_SECOND, given: 1, pair: 0x6e, last: 5, ..open };
    let end = TransferRecord { state: AFTER_END, given: 1, pair: 0x66, last: 5, ..open };
    let goes_on = |mut record: TransferRecord, byte: u8, answer: u32, given: &[u64], close: FpcReply| {
        // As after the last double, if there was one.
        let (mut f, mut d, mut doubles) = ([0; 16], [0; 16], [99; 2]);
        (f[0], d[0]) = (record.last, record.last);
        let reply = reply_of(record.piece(&mut f, &mut d, &[byte], &mut doubles));
        assert_eq!(reply, FpcReply { answer, count: given.len() as u32 }, "{record:?}");
        assert_eq!(doubles[..given.len()], *given);
        assert_eq!(reply_of(record.close()), close);
    };
    goes_on(open, 0x77, 0, &[0, 0], FpcReply::done(2));
    goes_on(first, 0x3f, 0, &[one, one], FpcReply::done(2));
    goes_on(second, 0x02, 0, &[8], FpcReply::done(2));
    goes_on(end, 0x00, 23, &[], FpcReply::refused(23));
}

/// A record and its tables, copied elsewhere in the middle, go on in the same way.
#[test]
fn records_that_are_kept() {
    let mut random = Random::new(255);
    for _ in 0..rounds(300) {
        let size = random.pick(&SIZES);
        let run = near_predictions(&mut random, size, 12);
        let (stream, _) = stream_of(size, &run);
        let cut = random.below(stream.len() + 1);
        let mut transfer = Compared::opened(&mut random, size);
        transfer.piece(&stream[..cut], 2 * cut);
        let (mut record, (mut f, mut d)) = (transfer.record(), transfer.tables());
        transfer.close();
        let mut rest = vec![99; 2 * (stream.len() - cut)];
        let given = record.piece(&mut f, &mut d, &stream[cut..], &mut rest).expect("the stream is good");
        assert_eq!([&transfer.doubles, &rest[..given]].concat(), run);
        assert_eq!(record.close(), Ok(12));
    }
}
