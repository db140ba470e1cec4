//! Generated inputs: valid and damaged lines of every kind, mode and dimension.

use crate::make::{ALL_EXPONENTS, First, WIDTHS, any_line, good_line, input, line_of};
use crate::run::compare;
use random::{Random, is_long};
use std::ops::Range;
use testing::Answers;

/// The numbers that stand at these digits of the lines that are expected for an input.
fn numbers(input: &[u8], digits: Range<usize>) -> Vec<u32> {
    let output = String::from_utf8(reference::listing(input)).unwrap();
    output.lines().map(|line| u32::from_str_radix(&line[digits.clone()], 16).unwrap()).collect()
}

/// Counts the answers that are expected for an input.
fn count(answers: &mut Answers, input: &[u8]) {
    numbers(input, 0..2).into_iter().for_each(|answer| answers.count(answer));
}

fn generated(seeds: Range<u64>, most: usize) -> Answers {
    let mut answers = Answers::none();
    for seed in seeds {
        let input = input(&mut Random::new(seed), most);
        compare(&input);
        count(&mut answers, &input);
    }
    answers
}

#[test]
fn short_inputs_of_all_sorts() {
    let count = if is_long() { 60_000 } else { 2_500 };
    let answers = generated(1..1 + count, 8);
    answers.must_include(&[0, 1, 2, 3, 4, 5, 9, 10, 12, 13]);
}

#[test]
fn inputs_of_all_sorts() {
    let count = if is_long() { 20_000 } else { 800 };
    let answers = generated(1_000_000..1_000_000 + count, 100);
    answers.must_include(&[0, 1, 2, 3, 4, 5, 9, 10, 12, 13]);
}

/// Every kind, mode and dimension at every width of the table. Of lossy blocks every number of
/// planes is listed.
#[test]
fn every_kind_mode_dimension_and_width() {
    let mut random = Random::new(2);
    let mut answers = Answers::none();
    let mut planes = [false; 33];
    let rounds = if is_long() { 60 } else { 1 };
    for case in 0..16 * WIDTHS.len() * rounds {
        let first = First {
            kind: case as u32 & 1,
            mode: case as u32 >> 1 & 1,
            dimension: 1 + (case as u32 >> 2 & 3),
            width: WIDTHS[case / 16 % WIDTHS.len()],
            ..First::good(&mut random)
        };
        let mut input = first.line();
        let lines = if first.dimension < 3 { 30 } else { 10 };
        (0..lines).for_each(|_| input.extend(good_line(&mut random, first)));
        (0..10).for_each(|_| input.extend(any_line(&mut random, first)));
        compare(&input);
        count(&mut answers, &input);
        if first.mode == 0 {
            numbers(&input, 6..8).into_iter().for_each(|number| planes[number as usize] = true);
        }
    }
    answers.must_include(&[0, 9, 10, 12]);
    assert!(!planes.contains(&false), "some number of planes was not listed: {planes:?}");
}

/// Every byte at every place of a block's line, its newline too, in the larger dimensions 16 bytes or one at each place. All
/// are lines of one input.
#[test]
fn every_byte_at_every_place_of_a_line() {
    let mut random = Random::new(3);
    for (dimension, step) in [(1, 1), (2, 1), (3, 16), (4, 256)] {
        let first = First { kind: 0, dimension, mode: 1, planes: 32, width: 0x30, lowest: ALL_EXPONENTS };
        let mut input = first.line();
        for byte in 0..=255 {
            let mut line = line_of(&vec![random.word() >> 28; first.block_len()]);
            for place in (usize::from(byte) % step..line.len()).step_by(step) {
                let before = std::mem::replace(&mut line[place], byte);
                input.extend(&line);
                line[place] = before;
            }
        }
        compare(&input);
    }
}

/// Lines of every length up to 2,100, all of digits: one of them is a block's, those of other dimensions are not.
#[test]
fn every_length_of_a_line() {
    for dimension in 1..=4 {
        let first = First { kind: 1, dimension, mode: 1, planes: 32, width: 8_462, lowest: ALL_EXPONENTS };
        let mut input = first.line();
        for length in 0..=2_100 {
            input.extend(vec![b'3'; length]);
            input.push(b'\n');
        }
        compare(&input);
        let mut answers = Answers::none();
        count(&mut answers, &input);
        answers.must_include(&[0, 12]);
    }
}
