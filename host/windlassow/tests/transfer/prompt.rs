//! "Each double goes out as soon as it can be known": with the last of its bytes, on the library alone.

use crate::common::*;
use crate::cuts::{any_cut, longest_stream};
use crate::make::*;
use reference::fpc::{Predictors, stream_of};
use windlassow::{TransferRecord, fpc_write};

/// For each double of a run, after how many bytes of the stream it is complete.
fn ends(size: usize, run: &[u64]) -> Vec<usize> {
    let mut predictors = Predictors::new(size);
    let mut end = 0;
    let mut ends = Vec::new();
    for (k, &v) in run.iter().enumerate() {
        let pair_bytes = if k % 2 == 0 { 1 } else { 0 };
        end += pair_bytes + predictors.code(v).1.len();
        predictors.update(v);
        ends.push(end);
    }
    ends
}

/// The stream of the first k doubles ends with the last of them, or one byte later if k is odd.
#[test]
fn ends_are_lengths_of_streams() {
    let mut random = Random::new(211);
    for size in SIZES {
        let run = near_predictions(&mut random, size, 60);
        let (mut f, mut d, mut out) = (vec![0; size], vec![0; size], [0; 17 * 30]);
        for (k, end) in ends(size, &run).into_iter().enumerate() {
            let len = fpc_write(&mut f, &mut d, &run[..=k], &mut out).unwrap();
            assert_eq!(len, end + (k + 1) % 2, "double {k} with tables of {size}");
        }
    }
}

/// Sends the pieces of a run's stream. Each gives the doubles that end in it, and leaves the tables as after them.
fn is_prompt(size: usize, run: &[u64], pieces: &[&[u8]]) {
    let ends = ends(size, run);
    let (mut f, mut d) = (vec![7; size], vec![8; size]);
    let (mut expected_f, mut expected_d) = (vec![0; size], vec![0; size]);
    let mut predictors = Predictors::new(size);
    let mut record = TransferRecord::default();
    record.open(&mut f, &mut d).unwrap();
    let (mut came, mut known) = (0, 0);
    for piece in pieces {
        came += piece.len();
        let before = known;
        while ends.get(known).is_some_and(|&end| end <= came) {
            predictors.update(run[known]);
            known += 1;
        }
        let mut doubles = vec![99; 2 * piece.len()];
        let given = record.piece(&mut f, &mut d, piece, &mut doubles);
        assert_eq!(given, Ok(known - before), "a piece up to byte {came}, tables of {size}");
        assert!(doubles[..known - before] == run[before..known], "doubles {before} to {known}");
        predictors.copy_tables(&mut expected_f, &mut expected_d);
        assert!((&f, &d) == (&expected_f, &expected_d), "tables of {size} after {known} doubles");
    }
    assert_eq!(record.close(), Ok(run.len()));
}

#[test]
fn byte_by_byte() {
    let mut random = Random::new(212);
    for size in SIZES {
        for maker in 0..MAKERS {
            for _ in 0..rounds(2) {
                let len = random.below(60);
                let run = run(&mut random, maker, size, len);
                let (stream, _) = stream_of(size, &run);
                is_prompt(size, &run, &stream.chunks(1).collect::<Vec<_>>());
            }
        }
    }
}

#[test]
fn in_pieces_of_any_length() {
    let mut random = Random::new(213);
    for _ in 0..rounds(400) {
        let size = random.pick(&SIZES);
        let (maker, len) = (random.below(MAKERS), random.below(100));
        let run = run(&mut random, maker, size, len);
        let (stream, _) = stream_of(size, &run);
        let count = random.below(stream.len() + 1);
        is_prompt(size, &run, &any_cut(&mut random, &stream, count));
    }
}

/// 34,816 bytes one at a time, and 4,096 doubles near their predictions.
#[test]
fn long_runs_byte_by_byte() {
    let mut random = Random::new(214);
    for size in [16, 64] {
        let (run, stream) = longest_stream(&mut random, size);
        is_prompt(size, &run, &stream.chunks(1).collect::<Vec<_>>());
        let run = near_predictions(&mut random, size, 4_096);
        let (stream, _) = stream_of(size, &run);
        is_prompt(size, &run, &stream.chunks(1).collect::<Vec<_>>());
        is_prompt(size, &run, &stream.chunks(7).collect::<Vec<_>>());
    }
}
