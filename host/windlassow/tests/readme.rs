//! The pictures of README.md say what the library does. (Its Rust example is run with the documentation's examples.)

use std::fs;
use testing::{bits, by_hand, repository};
use windlassow::{Block, Dimension, Done, Params, STACK_BYTES, fpc_write, read_block, store_block};

/// The lines of the block of text that follows a sentence which begins like this.
fn picture(sentence: &str) -> Vec<String> {
    let page = fs::read_to_string(repository().join("README.md")).expect("the page is there");
    let (_, after) = page.split_once(&format!("\n{sentence}")).expect("the README has the sentence");
    let (_, block) = after.split_once("\n```text\n").expect("a picture follows");
    block.lines().take_while(|line| *line != "```").map(String::from).collect()
}

/// Bytes that begin with these bits.
fn bytes_of(bits: &[bool], len: usize) -> Vec<u8> {
    let mut bytes = vec![0; len];
    bits.iter().enumerate().for_each(|(t, &bit)| bytes[t / 8] |= u8::from(bit) << (t % 8));
    bytes
}

#[test]
fn the_bits_of_p5() {
    let code = bits(&picture("The bits of P5")[0]);
    let mut archive = [0xFF; 19];
    let used = store_block(Params::exact_floats(Dimension::One), &mut archive, 0, &[1.0f32; 4]);
    assert_eq!(used, Ok(Done { count: code.len(), planes: 3 }));
    assert_eq!(archive[..18], bytes_of(&code, 18));
}

/// The slots of the picture: their bits, and the bytes that it gives for them.
fn cut_slots() -> Vec<(Vec<bool>, Vec<u8>)> {
    let lines = picture("A scan that the end of a lossy slot cuts");
    let slot = |line: &String| {
        let (digits, bytes) = line.strip_prefix("bits of the slot")?.split_once("bytes")?;
        let bytes = bytes.split_whitespace().map(|byte| u8::from_str_radix(byte, 16).unwrap()).collect();
        Some((bits(digits), bytes))
    };
    lines.iter().filter_map(slot).collect()
}

/// Each slot has one coefficient. With a = 2^16: the first has w = -8a, in negabinary 2^19, of which reading makes y = -4a, w = -6a; y = -10a, w = -2a;
/// z = 10a; x = 2a. The second has z = 4a, of which it makes x = -4a, y = 4a, w = -4a. The third has x = a, which is every value's.
#[test]
fn a_scan_cut_at_the_last_place_and_before_it() {
    let p = Params::lossy_integers(Dimension::One, 32, 16);
    let slots = cut_slots();
    for (bits, bytes) in &slots {
        assert_eq!((bits.len(), &bytes_of(bits, 2)), (16, bytes));
    }
    let blocks: Vec<Block<i32, 4>> =
        slots.iter().map(|(_, bytes)| read_block(p, bytes, 0).unwrap()).collect();
    let a = 1 << 16;
    // Planes 31 to 20 and plane 19, which is whole; planes 31 to 19; planes 31 to 17.
    let last = Block { values: [2 * a, -10 * a, 10 * a, -2 * a], planes: 12 + 1 };
    let third = Block { values: [-4 * a, 4 * a, 4 * a, -4 * a], planes: 13 };
    assert_eq!(blocks, [last, third, Block { values: [a; 4], planes: 15 }]);
}

/// A row of a picture shows the numbers of a row of each square.
#[test]
fn the_order_of_coefficients() {
    for (dimension, sentence) in [(2, "The order in which the 16"), (3, "The same of the 64 coefficients")] {
        let lines = picture(sentence);
        let numbers =
            |line: &String| line.split_whitespace().skip(3).map(|number| number.parse().unwrap()).collect();
        let rows: Vec<Vec<usize>> =
            lines.iter().filter(|line| line.starts_with("j = ")).map(numbers).collect();
        for (number, place) in by_hand::order(dimension) {
            let [i, j, k, _] = by_hand::indices(place);
            assert_eq!(rows[j][4 * k + i], number, "dimension {dimension}, place {place}");
        }
    }
}

#[test]
fn the_stack_of_a_call() {
    let page = fs::read_to_string(repository().join("README.md")).expect("the page is there");
    assert!(page.contains(&format!("\n| stack of a call | {} KiB at most", STACK_BYTES / 1024)));
}

#[test]
fn a_pair_of_an_fpc_stream() {
    let first = &picture("One pair of an FPC stream")[0];
    let shown: Vec<u8> = first.split_whitespace().map(|byte| u8::from_str_radix(byte, 16).unwrap()).collect();
    let (mut f, mut d, mut out) = ([0; 16], [0; 16], [0; 17]);
    let len = fpc_write(&mut f, &mut d, &[5, 8], &mut out).unwrap();
    assert_eq!(out[..len], shown);
}
