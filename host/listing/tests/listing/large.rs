//! Many lines, and lines far longer than any that is well formed.

use crate::make::{ALL_EXPONENTS, First, any_line, good_line};
use crate::run::{command, compare, compare_from_file};
use listing::wait_for;
use random::{Random, is_long};
use std::io::{Read, Write};
use std::process::Stdio;
use std::time::Duration;

const MEGABYTE: usize = 1 << 20;

#[test]
fn a_hundred_thousand_lines() {
    let mut random = Random::new(10);
    let first = First { kind: 0, dimension: 1, mode: 1, planes: 32, width: 131, lowest: ALL_EXPONENTS };
    let mut input = first.line();
    (0..100_000).for_each(|_| input.extend(any_line(&mut random, first)));
    compare(&input);
    compare_from_file(&input);
}

#[test]
fn many_lines_of_every_sort() {
    let mut random = Random::new(11);
    for case in 0..16 {
        let good = First::good(&mut random);
        let first = First { kind: case & 1, mode: case >> 1 & 1, dimension: 1 + (case >> 2), ..good };
        let mut input = first.line();
        (0..8_000 >> first.dimension).for_each(|_| input.extend(any_line(&mut random, first)));
        compare(&input);
    }
}

/// Only digits, and too many of them: a first line, a block's line, with a newline and without.
#[test]
fn lines_of_a_megabyte() {
    let mut random = Random::new(12);
    for dimension in 1..=4 {
        let first = First { dimension, ..First::good(&mut random) };
        let line = first.line();
        let good = good_line(&mut random, first);
        let digits: Vec<u8> = good[..good.len() - 1].iter().copied().cycle().take(MEGABYTE).collect();
        let mut inputs = vec![digits.clone(), [&digits, &b"\n"[..]].concat(), [&digits, &good[..]].concat()];
        inputs.push([&digits[..], b"\n", &line, &good].concat());
        inputs.push([&line[..], &digits].concat());
        inputs.push([&line[..], &digits, &good, &good].concat());
        inputs.push([&line[..], &digits, b"\n", &good, &digits, b"\n\n", &good].concat());
        for input in inputs {
            compare(&input);
            compare_from_file(&input);
        }
    }
}

/// Lines whose length is a well formed one's and a multiple of 256 or of 65,536, as a short counter would see it.
#[test]
fn lengths_that_a_short_counter_would_take_for_good_ones() {
    for dimension in 1..=4 {
        let first = First { kind: 0, dimension, mode: 1, planes: 32, width: 1024, lowest: ALL_EXPONENTS };
        let digits = 8 * first.block_len();
        for more in [256, 512, 2_048, 4_096, 65_536, 131_072] {
            for off in 0..3 {
                let long = [vec![b'1'; digits + more + off - 1], b"\n".to_vec()].concat();
                compare(&[&first.line()[..], &long, &vec![b'1'; digits], b"\n"].concat());
            }
            let mut line = first.line();
            line.splice(16..16, vec![b'0'; more]);
            compare(&[&line[..], &vec![b'1'; digits], b"\n"].concat());
            line.splice(0..0, vec![b'0'; more]);
            compare(&[&line[..], &vec![b'1'; digits], b"\n"].concat());
        }
    }
    if is_long() {
        a_length_that_a_counter_of_32_bits_would_take_for_a_good_one();
    }
}

/// The same for a counter of 32 bits: a line of 4 gigabytes. Called only with `WINDLASSOW_LONG=1`.
fn a_length_that_a_counter_of_32_bits_would_take_for_a_good_one() {
    let mut child = command().stdin(Stdio::piped()).spawn().unwrap();
    let mut pipe = child.stdin.take().unwrap();
    pipe.write_all(b"0001012000300000\n").unwrap();
    let megabyte = vec![b'0'; MEGABYTE];
    (0..4096).for_each(|_| pipe.write_all(&megabyte).unwrap());
    pipe.write_all(&[b'0'; 32]).unwrap();
    pipe.write_all(b"\n00000001000000010000000100000001\n").unwrap();
    drop(pipe);
    wait_for(&mut child, Duration::from_secs(60)).unwrap();
    let mut output = String::new();
    child.stdout.unwrap().read_to_string(&mut output).unwrap();
    assert_eq!(output, "0c000000\n000027201f0000003000\n");
}
