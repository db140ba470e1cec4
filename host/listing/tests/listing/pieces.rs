//! Input that comes in pieces through a pipe. What is listed does not depend on where they are cut.

use crate::make::{First, any_line, good_line, input};
use crate::run::compare_in_pieces;
use random::{Random, is_long};

fn mixed(random: &mut Random, dimension: u32, lines: usize) -> Vec<u8> {
    let first = First { dimension, width: 47, ..First::good(random) };
    let mut input = first.line();
    (0..lines).for_each(|_| input.extend(any_line(random, first)));
    input
}

#[test]
fn pieces_of_every_size() {
    let mut random = Random::new(6);
    let more = [127, 128, 129, 255, 256, 257, 511, 512, 513, 1000, 2047, 2048, 2049, 2050, 4095, 4096];
    for size in (1..=if is_long() { 2_100 } else { 70 }).chain(more) {
        for (dimension, lines) in [(1, 20), (2, 7), (3, 3), (4, 2)] {
            let input = mixed(&mut random, dimension, lines);
            compare_in_pieces(&input, &input.chunks(size).collect::<Vec<_>>());
            let unended = &input[..input.len() - 1];
            compare_in_pieces(unended, &unended.chunks(size).collect::<Vec<_>>());
        }
    }
}

#[test]
fn cuts_around_every_newline() {
    let mut random = Random::new(7);
    for (dimension, lines) in [(1, 30), (2, 30), (3, 10), (4, 10)] {
        let input = mixed(&mut random, dimension, lines);
        let newlines: Vec<usize> = (0..input.len()).filter(|&place| input[place] == b'\n').collect();
        for newline in newlines {
            for cut in [newline.saturating_sub(1), newline, newline + 1, newline + 2] {
                let cut = cut.min(input.len());
                let next = (cut + 1).min(input.len());
                compare_in_pieces(&input, &[&input[..cut], &input[cut..]]);
                // A single byte between two longer pieces.
                compare_in_pieces(&input, &[&input[..cut], &input[cut..next], &input[next..]]);
            }
        }
    }
}

/// In the largest dimension at every seventh.
#[test]
fn a_cut_at_every_place() {
    let mut random = Random::new(8);
    for (dimension, step) in [(1, 1), (2, 1), (3, 1), (4, 7)] {
        let first = First { dimension, ..First::good(&mut random) };
        let mut input = first.line();
        (0..2).for_each(|_| input.extend(good_line(&mut random, first)));
        for cut in (0..=input.len()).step_by(step) {
            compare_in_pieces(&input, &[&input[..cut], &input[cut..]]);
        }
    }
}

#[test]
fn pieces_of_mixed_sizes() {
    for seed in 0..if is_long() { 5_000 } else { 150 } {
        let mut random = Random::new(9_000 + seed);
        let input = input(&mut random, 12);
        let mut pieces = Vec::new();
        let mut rest = &input[..];
        while !rest.is_empty() {
            let (piece, after) = rest.split_at((1 + random.below(60)).min(rest.len()));
            pieces.push(piece);
            rest = after;
        }
        compare_in_pieces(&input, &pieces);
    }
}
