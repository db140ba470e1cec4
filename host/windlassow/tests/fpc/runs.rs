//! Runs written and read back, in rooms of every size.

use crate::common::*;
use crate::compare::*;
use crate::make::*;
use reference::fpc::{Predictors, stream_of};

#[test]
fn every_table_size_and_way_of_making_runs() {
    let mut random = Random::new(101);
    for size in SIZES {
        for maker in 0..MAKERS {
            for _ in 0..rounds(12) {
                let len = random.below(400);
                let run = run(&mut random, maker, size, len);
                compare_both(&mut random, size, &run);
            }
        }
    }
}

#[test]
fn every_length() {
    let mut random = Random::new(102);
    let longest = 4096;
    let step = if is_long() { 1 } else { 101 };
    let lengths = (0..70).chain((70..longest).step_by(step)).chain(longest - 3..=longest);
    for len in lengths {
        let size = random.pick(&SIZES);
        let maker = random.below(MAKERS);
        let run = run(&mut random, maker, size, len);
        compare_both(&mut random, size, &run);
    }
    for size in SIZES {
        for maker in 0..MAKERS {
            let run = run(&mut random, maker, size, longest + 1);
            compare_both(&mut random, size, &run[..longest]);
            assert_eq!(compare_write(&mut random, (size, size), &run, 40_000).answer, 21);
        }
    }
}

/// Every pair of a first and a second half byte occurs.
#[test]
fn every_half_byte() {
    let mut random = Random::new(103);
    let mut seen = [[false; 16]; 2];
    for _ in 0..rounds(300) {
        let size = random.pick(&SIZES);
        let run = near_predictions(&mut random, size, 100);
        compare_both(&mut random, size, &run);
        let mut predictors = Predictors::new(size);
        for (k, &v) in run.iter().enumerate() {
            seen[k % 2][predictors.code(v).0 as usize] = true;
            predictors.update(v);
        }
    }
    assert!(seen.iter().flatten().all(|&seen| seen), "some half byte never occurred: {seen:?}");
}

#[test]
fn tables_of_every_length() {
    let mut random = Random::new(104);
    let stream = [0x77, 0x76, 0x00];
    let mut answers = Answers::none();
    for size in (0..=1100).chain([2047, 2048, 4096]) {
        answers.count(compare_write(&mut random, (size, size), &[0, 0, 0], 3).answer);
        answers.count(compare_read(&mut random, (size, size), &stream, 3).0.answer);
    }
    for _ in 0..rounds(3000) {
        let mut size = || {
            let any = random.below(1100);
            random.pick(&[0, 8, 16, 32, 64, 128, 256, 512, 1024, 2048, any])
        };
        let sizes = (size(), size());
        answers.count(compare_write(&mut random, sizes, &[0, 0, 0], 3).answer);
        answers.count(compare_read(&mut random, sizes, &stream, 3).0.answer);
    }
    answers.must_include(&[0, 20]);
}

#[test]
fn refusals_in_their_order() {
    let mut random = Random::new(105);
    let mut answers = Answers::none();
    let stream = stream_of(16, &vec![1 << 63; 4096]).0;
    for _ in 0..rounds(600) {
        let sizes = (random.pick(&[8, 16, 16, 16]), random.pick(&[16, 16, 16, 32]));
        let len = random.pick(&[0, 1, 2, 4095, 4096, 4097, 5000]);
        let room = random.pick(&[0, 1, 8, 3000, 40_000]);
        answers.count(compare_write(&mut random, sizes, &vec![1 << 63; len], room).answer);
        let mut bytes = stream[..random.pick(&[0, 1, stream.len() - 1, stream.len()])].to_vec();
        if random.once_in(3) {
            bytes.resize(random.pick(&[34_816, 34_817, 65_535, 65_536, 65_537, 70_000]), 0x77);
        }
        let room = random.pick(&[0, 1, 4095, 4096, 4097]);
        answers.count(compare_read(&mut random, sizes, &bytes, room).0.answer);
    }
    answers.must_include(&[0, 20, 21, 22, 23]);
}

#[test]
fn every_room() {
    let mut random = Random::new(106);
    let mut answers = Answers::none();
    for _ in 0..rounds(25) {
        let size = random.pick(&SIZES);
        let (maker, len) = (random.below(MAKERS), random.below(24));
        let run = run(&mut random, maker, size, len);
        let (stream, _) = stream_of(size, &run);
        for room in 0..=stream.len() + 9 {
            answers.count(compare_write(&mut random, (size, size), &run, room).answer);
        }
        for room in 0..=len + 5 {
            answers.count(compare_read(&mut random, (size, size), &stream, room).0.answer);
        }
    }
    answers.must_include(&[0, 22]);
}
