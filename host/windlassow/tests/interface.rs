//! The parts of the Rust interface that are not calls of the library: parameters, lengths, blocks of values, texts.

use windlassow::{
    Block, Dimension, Kind, MAX_ARCHIVE_LEN, MAX_LOWEST, MAX_RUN_LEN, MAX_STREAM_LEN, MAX_WIDTH, MIN_LOWEST,
    MIN_WIDTH, Mode, Params, Refusal, Transfer, Value, bit_count, fpc_read, fpc_write, read_block,
    slot_count, slots, store_block,
};

const DIMENSIONS: [Dimension; 4] = [Dimension::One, Dimension::Two, Dimension::Three, Dimension::Four];

#[test]
fn parameters_are_shown_as_they_were_given() {
    let p = Params::new(Kind::Floats, Dimension::Two, Mode::Lossy, 20, 130);
    assert_eq!((p.kind(), p.dimension(), p.mode()), (Ok(Kind::Floats), Ok(Dimension::Two), Ok(Mode::Lossy)));
    assert_eq!((p.planes(), p.width(), p.block_len(), p.slot_bits()), (20, 130, Ok(16), Ok(130)));
    assert_eq!((p.lowest(), p.with_lowest(-5).lowest(), p.with_lowest(301).lowest()), (-300, -5, 301));
    assert_eq!(p.with_lowest(7), Params::from_numbers(1, 2, 0, 20, 130, 7));
    let bad = Params::from_numbers(2, 5, 4, 33, 15, MIN_LOWEST);
    assert_eq!(bad.kind(), Err(Refusal::InvalidKind));
    assert_eq!(bad.dimension(), Err(Refusal::InvalidDimension));
    assert_eq!(bad.mode(), Err(Refusal::InvalidMode));
    assert_eq!(
        (bad.block_len(), bad.slot_bits()),
        (Err(Refusal::InvalidDimension), Err(Refusal::InvalidDimension))
    );
}

/// N, and W for 0: of lossy blocks, and of exact ones, whose slots take every block.
#[test]
fn lengths_and_widths_of_every_dimension() {
    let numbers = [(4, 32, 146), (16, 128, 542), (64, 512, 2_126), (256, 2_048, 8_462)];
    for (number, (dimension, (n, lossy, exact))) in (1..).zip(DIMENSIONS.into_iter().zip(numbers)) {
        let p = Params::from_numbers(0, number, 0, 32, 0, MIN_LOWEST);
        assert_eq!((p.dimension(), p.block_len()), (Ok(dimension), Ok(n)));
        assert_eq!(Params::lossy_integers(dimension, 32, 0), p);
        assert_eq!((p.width(), p.slot_bits()), (0, Ok(lossy)));
        for p in [Params::exact_integers(dimension), Params::exact_floats(dimension)] {
            assert_eq!((p.width(), p.slot_bits()), (0, Ok(exact)));
            assert_eq!(p.with_width(lossy as u32).slot_bits(), Ok(lossy));
        }
        let other = Params::from_numbers(0, number, 2, 32, 0, MIN_LOWEST);
        assert_eq!(other.slot_bits(), Err(Refusal::InvalidMode));
        for (width, bits) in
            [(15, None), (16, Some(16)), (8_462, Some(8_462)), (8_463, None), (u32::MAX, None)]
        {
            assert_eq!(p.with_width(width).slot_bits(), bits.ok_or(Refusal::InvalidWidth));
        }
    }
}

/// The length has just that many slots, and a byte less has fewer, up to the longest archive.
#[test]
fn an_archive_has_the_slots_that_its_length_was_asked_for() {
    for width in [0, 16, 17, 19, 48, 146, 1024, 2126, 8461, 8462] {
        let p = Params::exact_floats(Dimension::One).with_width(width);
        let most = 8 * MAX_ARCHIVE_LEN / p.slot_bits().unwrap();
        for slots in [1, 2, 3, 7, 100, most - 1, most].into_iter().filter(|&slots| slots <= most) {
            let archive = vec![0; p.archive_len(slots).unwrap()];
            assert!(slot_count(p, &archive).unwrap() >= slots, "width {width}, {slots} slots");
            assert!(slot_count(p, &archive[1..]).unwrap() < slots, "width {width}, {slots} slots");
        }
        assert_eq!(p.archive_len(0), Ok(0));
        assert_eq!(p.archive_len(most + 1), Err(Refusal::ArchiveTooLong));
        assert_eq!(p.archive_len(usize::MAX), Err(Refusal::ArchiveTooLong));
    }
}

/// The limits named are the library's own.
#[test]
fn the_limits_are_the_librarys() {
    let p = Params::exact_floats(Dimension::One);
    for (width, is_good) in
        [(MIN_WIDTH - 1, false), (MIN_WIDTH, true), (MAX_WIDTH, true), (MAX_WIDTH + 1, false)]
    {
        assert_eq!(slot_count(p.with_width(width), &[]).is_ok(), is_good, "width {width}");
    }
    for (lowest, is_good) in
        [(MIN_LOWEST - 1, false), (MIN_LOWEST, true), (MAX_LOWEST, true), (MAX_LOWEST + 1, false)]
    {
        let expected = if is_good { Ok(0) } else { Err(Refusal::InvalidLowest) };
        assert_eq!(slot_count(p.with_lowest(lowest), &[]), expected, "lowest exponent {lowest}");
    }
    assert!(slot_count(p, &vec![0; MAX_ARCHIVE_LEN]).is_ok());
    assert_eq!(slot_count(p, &vec![0; MAX_ARCHIVE_LEN + 1]), Err(Refusal::ArchiveTooLong));
    let (mut f, mut d, mut out) = ([0; 16], [0; 16], vec![0; 34_816]);
    assert!(fpc_write(&mut f, &mut d, &vec![0; MAX_RUN_LEN], &mut out).is_ok());
    let longer = fpc_write(&mut f, &mut d, &vec![0; MAX_RUN_LEN + 1], &mut out);
    assert_eq!(longer, Err(Refusal::InputTooLong));
    let read = |len, f: &mut [u64], d: &mut [u64]| fpc_read(f, d, &vec![0; len], &mut []);
    assert_eq!(read(MAX_STREAM_LEN, &mut f, &mut d), Err(Refusal::NotAStream));
    assert_eq!(read(MAX_STREAM_LEN + 1, &mut f, &mut d), Err(Refusal::InputTooLong));
    let mut transfer = Transfer::open(f, d).unwrap();
    let needed = 2 * MAX_STREAM_LEN;
    assert_eq!(transfer.feed(&vec![0; MAX_STREAM_LEN + 1], &mut []), Err(Refusal::InputTooLong));
    assert_eq!(transfer.feed(&vec![0; MAX_STREAM_LEN], &mut []), Err(Refusal::PieceRoom { needed }));
    // A pair's byte 00 and eight bytes of a double whose code is 7.
    let damaged = transfer.feed(&vec![0; MAX_STREAM_LEN], &mut vec![0; needed]);
    assert_eq!(damaged, Err(Refusal::Damaged { doubles: 0 }));
}

/// Any patterns: -0, infinities, a NaN with a payload, a signalling one.
#[test]
fn blocks_of_floats_come_back_bit_for_bit() {
    let p = Params::exact_floats(Dimension::One);
    let mut archive = [0; 19];
    for words in [[0x8000_0000, 0, 1, 0x7F7F_FFFF], [0x7F80_0000, 0xFF80_0000, 0x7FC0_1234, 0x7F80_0001]] {
        store_block(p, &mut archive, 0, &words.map(f32::from_bits)).unwrap();
        let back: Block<f32, 4> = read_block(p, &archive, 0).unwrap();
        assert_eq!(back.values.map(f32::to_bits), words);
    }
}

/// In the only slot of an archive.
fn comes_back<T: Value + PartialEq + std::fmt::Debug, const N: usize>(p: Params, block: [T; N]) {
    let mut archive = vec![0; p.archive_len(1).unwrap()];
    let planes = store_block(p, &mut archive, 0, &block).unwrap().planes;
    let block = Block { values: block, planes };
    assert_eq!(read_block(p, &archive, 0), Ok(block));
    assert_eq!(slots(p, &archive).unwrap().collect::<Vec<_>>(), [Ok(block)]);
}

#[test]
fn blocks_of_every_dimension_come_back() {
    fn integer(place: usize) -> i32 {
        (place as i32 - 8).wrapping_mul(0x0FFF_FFFF)
    }
    fn float(place: usize) -> f32 {
        21.5 - place as f32 / 10.0
    }
    comes_back(Params::exact_integers(Dimension::One), std::array::from_fn::<_, 4, _>(integer));
    comes_back(Params::exact_integers(Dimension::Two), std::array::from_fn::<_, 16, _>(integer));
    comes_back(Params::exact_integers(Dimension::Three), std::array::from_fn::<_, 64, _>(integer));
    comes_back(Params::exact_integers(Dimension::Four), std::array::from_fn::<_, 256, _>(integer));
    comes_back(Params::exact_floats(Dimension::Three), std::array::from_fn::<_, 64, _>(float));
    comes_back(Params::exact_floats(Dimension::Four), std::array::from_fn::<_, 256, _>(float));
}

#[test]
fn the_other_type_and_another_length_are_refused() {
    let p = Params::exact_floats(Dimension::One);
    let mut archive = [0; 19];
    assert_eq!(store_block(p, &mut archive, 0, &[0i32; 4]), Err(Refusal::InvalidKind));
    assert_eq!(read_block::<i32, 4>(p, &archive, 0), Err(Refusal::InvalidKind));
    assert_eq!(slots::<i32, 4>(p, &archive).map(|slots| slots.len()), Err(Refusal::InvalidKind));
    assert_eq!(store_block(p, &mut archive, 0, &[0f32; 3]), Err(Refusal::InvalidBlockLen));
    assert_eq!(read_block::<f32, 16>(p, &archive, 0), Err(Refusal::InvalidBlockLen));
    assert_eq!(slots::<f32, 16>(p, &archive).map(|slots| slots.len()), Err(Refusal::InvalidBlockLen));
    assert_eq!(slots::<f32, 4>(p, &vec![0; 65_537]).map(|slots| slots.len()), Err(Refusal::ArchiveTooLong));
}

#[test]
fn every_slot_once_and_in_order() {
    let p = Params::exact_integers(Dimension::One);
    let mut archive = vec![0; p.archive_len(100).unwrap()];
    for slot in 0..100 {
        store_block(p, &mut archive, slot, &[slot as i32; 4]).unwrap();
    }
    let mut all = slots::<i32, 4>(p, &archive).unwrap();
    for slot in 0..100 {
        assert_eq!(all.len(), 100 - slot);
        let block = all.next().unwrap().unwrap();
        assert_eq!(block.values, [slot as i32; 4]);
        // The one coefficient is the number itself, and its lowest one is there in negabinary too; zeros take a plane.
        assert_eq!(block.planes, if slot == 0 { 1 } else { 32 - slot.trailing_zeros() });
    }
    assert_eq!((all.len(), all.next(), all.next()), (0, None, None));
}

/// Refusals 22 and 23 leave the tables zero, and their texts say so.
#[test]
fn texts_of_refusals() {
    let (mut f, mut d, mut doubles) = ([7; 16], [7; 16], [0; 1]);
    let refusal = fpc_read(&mut f, &mut d, &[0x77], &mut doubles).unwrap_err();
    assert_eq!(
        refusal.to_string(),
        "the output is longer than the room lent, and both tables are now zero: it needs 2 bytes to write, or \
         doubles to read"
    );
    assert_eq!((f, d), ([0; 16], [0; 16]));
    let (mut f, mut d) = ([7; 16], [7; 16]);
    let refusal = fpc_read(&mut f, &mut d, &[0x66, 0, 0], &mut doubles).unwrap_err();
    assert!(refusal.to_string().ends_with("and both tables are now zero"));
    assert_eq!((f, d), ([0; 16], [0; 16]));
    assert_eq!(
        Refusal::CodeTooLong { bits: 136 }.to_string(),
        "the code is longer than the slot: it needs 136 bits"
    );
    assert_eq!((Refusal::UnreadableSlot { slot: 7 }).number(), 11);
    assert_eq!(Refusal::UnreadableSlot { slot: 7 }.to_string(), "the slot holds no exact code: slot 7");
    assert_eq!(Refusal::TooFewSlots.number(), 14);
    assert_eq!(Refusal::TooFewSlots.to_string(), "the new archive has fewer slots than the old one");
    assert_eq!(Refusal::InvalidLowest.number(), 13);
    assert_eq!(Refusal::InvalidLowest.to_string(), "the lowest exponent is not from -300 to 300");
}

/// All constructors but one keep all exponents.
#[test]
fn parameters_keep_all_exponents() {
    for dimension in DIMENSIONS {
        let all = [
            Params::exact_integers(dimension),
            Params::exact_floats(dimension),
            Params::lossy_integers(dimension, 20, 64),
            Params::lossy_floats(dimension, 20, 64),
            Params::new(Kind::Floats, dimension, Mode::Lossy, 20, 64),
        ];
        assert!(all.iter().all(|p| p.lowest() == MIN_LOWEST));
    }
}

/// A const, since the constructor is a const function.
const HALF_A_TENTH: Result<Params, Refusal> = Params::lossy_floats_within(Dimension::One, 0.05);

/// The largest q with 1.5 x 2^q at most the tolerance.
#[test]
fn the_lowest_exponent_of_a_tolerance() {
    let lowest = |tolerance| Params::lossy_floats_within(Dimension::One, tolerance).map(Params::lowest);
    assert_eq!(HALF_A_TENTH.map(Params::lowest), Ok(-5));
    for (tolerance, q) in [
        (1.0, -1),
        (1.9, 0),
        (2.0, 0),
        (3.0, 1),
        (0.5, -2),
        (0.1, -4),
        (0.01, -8),
        (0.001, -11),
        (f64::INFINITY, 300),
    ] {
        assert_eq!(lowest(tolerance), Ok(q), "{tolerance}");
    }
    for q in MIN_LOWEST..=MAX_LOWEST {
        let most = 1.5 * 2f64.powi(q);
        assert_eq!((lowest(most), lowest(1.9 * most)), (Ok(q), Ok(q)));
        let below = f64::from_bits(most.to_bits() - 1);
        assert_eq!(lowest(below).ok(), (q > MIN_LOWEST).then_some(q - 1));
    }
    assert_eq!((lowest(2f64.powi(301)), lowest(f64::MAX)), (Ok(300), Ok(300)));
    for bad in
        [0.0, -0.0, -0.05, -f64::MAX, f64::NEG_INFINITY, f64::NAN, -f64::NAN, 5e-324, f64::MIN_POSITIVE]
    {
        assert_eq!(lowest(bad), Err(Refusal::InvalidLowest), "{bad}");
    }
}

/// P = 32, and a slot that cuts no block.
#[test]
fn the_slots_of_a_tolerance() {
    for dimension in DIMENSIONS {
        let p = Params::lossy_floats_within(dimension, 0.05).unwrap();
        let n = dimension.block_len();
        let width = 33 * n as u32 + 14;
        assert_eq!(p, Params::lossy_floats(dimension, 32, width).with_lowest(-5));
        assert_eq!((p.kind(), p.mode(), p.slot_bits()), (Ok(Kind::Floats), Ok(Mode::Lossy), Ok(33 * n + 14)));
    }
}

/// Readings of a refrigerator in tenths of a degree: each comes back within the tolerance, in fewer bits than exactly. A coarser
/// tolerance takes no more bits.
#[test]
fn readings_come_back_within_the_tolerance() {
    let readings: [f32; 16] =
        std::array::from_fn(|place| 4.0 + [3, 1, 4, 1, 5, 9, 2, 6][place % 8] as f32 / 10.0);
    let mut bits =
        bit_count(Params::exact_floats(Dimension::Two), &readings.map(f32::to_bits)).unwrap().count;
    for tolerance in [0.001, 0.01, 0.05, 0.1, 0.5, 1.0, 5.0] {
        let p = Params::lossy_floats_within(Dimension::Two, tolerance).unwrap();
        let mut archive = vec![0; p.archive_len(1).unwrap()];
        let done = store_block(p, &mut archive, 0, &readings).unwrap();
        let back: Block<f32, 16> = read_block(p, &archive, 0).unwrap();
        for (value, reading) in back.values.into_iter().zip(readings) {
            assert!(
                f64::from(value - reading).abs() <= tolerance,
                "{value} for {reading} within {tolerance}"
            );
        }
        assert!(done.count < bits, "{} bits within {tolerance}", done.count);
        bits = done.count;
    }
}
