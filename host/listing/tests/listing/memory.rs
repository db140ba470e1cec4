//! The program's memory does not grow with its input.

use crate::run::command;
use listing::peak_kib;
use std::io::{Read, Write};
use std::process::Stdio;

/// What the program may hold at a time: a few pages for its loader and its C library, and its buffers.
const MOST_KIB: u64 = 8 * 1024;

const MEGABYTE: usize = 1 << 20;

/// Writes a first line of this dimension and then `piece` again and again for so many megabytes, looks at the program's peak
/// memory before the end of the input, and gives that and the output's last 64 bytes.
fn peak_over(dimension: u32, megabytes: usize, piece: &[u8]) -> (u64, String) {
    let mut child = command().stdin(Stdio::piped()).spawn().expect("the program can be run");
    let mut pipe = child.stdin.take().unwrap();
    let mut out = child.stdout.take().unwrap();
    let reader = std::thread::spawn(move || {
        let mut output = Vec::new();
        out.read_to_end(&mut output).unwrap();
        String::from_utf8(output.split_off(output.len().saturating_sub(64))).unwrap()
    });
    writeln!(pipe, "000{dimension}012000300000").unwrap();
    let many = piece.repeat(MEGABYTE / piece.len());
    (0..megabytes).for_each(|_| pipe.write_all(&many).expect("the program reads to the end"));
    // All but what a pipe holds has been read, and the program waits for more.
    let peak = peak_kib(child.id()).expect("the program is still running");
    drop(pipe);
    let last = reader.join().unwrap();
    child.wait().unwrap();
    (peak, last)
}

#[test]
fn one_line_of_64_megabytes() {
    for dimension in [1, 4] {
        let (peak, last) = peak_over(dimension, 64, b"0");
        assert_eq!(last, "0c000000\n");
        assert!(peak < MOST_KIB, "the program held {peak} KiB");
    }
}

/// Lines of ones, of which the first coefficient is 1 and the others 0: P2's code in every dimension.
#[test]
fn half_a_million_lines() {
    for dimension in 1..=4 {
        let line = "00000001".repeat(4usize.pow(dimension)) + "\n";
        let (peak, last) = peak_over(dimension, 16, line.as_bytes());
        assert!(last.ends_with("\n000027201f0000003000\n"));
        assert!(peak < MOST_KIB, "the program held {peak} KiB");
    }
}
