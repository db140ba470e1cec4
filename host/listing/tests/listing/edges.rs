//! Lines that end just before, at and after places where a program's buffer may end.

use crate::make::{First, good_line};
use crate::run::{compare, compare_from_file};
use random::Random;

/// An ill-formed line that ends at the given place of the input, then good ones.
fn input(random: &mut Random, first: First, end: usize) -> Vec<u8> {
    let mut input = first.line();
    if end > input.len() {
        input.resize(end - 1, b'5');
        input.push(b'\n');
    }
    for _ in 0..3 {
        input.extend(good_line(random, first));
    }
    input
}

#[test]
fn lines_across_the_end_of_a_buffer() {
    let mut random = Random::new(5);
    for bits in 4..18 {
        let size = 1 << bits;
        for off in [0, 1, 2, 12, 16, 31, 32, 33, 34, 512, 513, 2_048, 2_049] {
            let first = First { width: 33, ..First::good(&mut random) };
            // The next line's first byte stands `off` before the end, and the input ends near it.
            compare_from_file(&input(&mut random, first, size - off.min(size)));
            let whole = input(&mut random, first, size + 2 - off.min(size));
            compare(&whole);
            for end in [size - 1, size, size + 1] {
                compare_from_file(&whole[..end.min(whole.len())]);
            }
        }
    }
}

/// A first line with its newline at the end of an input, or without it, and one byte more.
#[test]
fn ends_around_the_first_newline() {
    let line = b"0001012000300000\n00000001000000010000000100000001\n";
    for end in 0..=line.len() {
        compare(&line[..end]);
        compare_from_file(&line[..end]);
    }
}
