//! First lines: document 01's example, the refusals of rows 1 to 5 and 13, and ill-formed ones.

use crate::make::{ALL_EXPONENTS, First, MOST, WRONG, line_of};
use crate::run::{compare, lists};
use random::{Random, is_long};
use testing::by_hand::longest;

const GOOD: &str = "0001012000300000\n";
const ONES: &str = "00000001000000010000000100000001\n";

/// As document 02 has it, with four more digits in the first line.
#[test]
fn document_01s_example() {
    let input = "0001012000300000\n00000001000000010000000100000001\naaaaaaab55555556aaaaaaac55555558\n";
    lists(input.as_bytes(), "000027201f0000003000\n0a008800\n");
}

/// Lossy integers in slots of 32 bits. 1 2 3 4 has 29 planes of a bit each and then 110, which ends there: 30 planes. 0 0 0 16
/// has 28 and then 1011.., which is cut: 28 planes. Document 02's own lines are in the example above.
#[test]
fn the_planes_stand_after_the_count() {
    let input = "0001002000200000\n00000001000000020000000300000004\n00000000000000000000000000000010\n0\n";
    lists(input.as_bytes(), "0000201e00000060\n0000201c000000d0\n0c000000\n");
    // Four times 1.0 in 16 bits: 1 00000001, then 0, 110 and 10, and a bit of the fourth plane; zeros; an infinity.
    let floats = ["3f800000".repeat(4), "80000000".repeat(4), "7f800000".repeat(4)].join("\n");
    lists(format!("0101002000100000\n{floats}\n").as_bytes(), "00001003012d\n000001000000\n09000000\n");
}

/// Lossy floats in slots of 16 bits: four times 1.0, four times 2^-20, an infinity. m is 1 and -19, and q + 300 stands in the
/// last four digits: there are 5 - q planes, and -15 - q.
#[test]
fn the_lowest_exponent_of_lossy_floats() {
    let floats = ["3f800000".repeat(4), "35800000".repeat(4), "7f800000".repeat(4)].join("\n");
    for (digits, ones, small) in [
        // q = -300: 7 bits of planes, of both the same: 0, 110, 10 and a bit. e is 128 and 108.
        ("0000", "00001003012d", "00001003d92c"),
        // q = -18, -17, -16 and -15.
        ("011a", "00001003012d", "00000f03d92c"),
        ("011b", "00001003012d", "00000d02d90c"),
        ("011c", "00001003012d", "00000a01d900"),
        ("011d", "00001003012d", "000001000000"),
        // q = 2, 3, 4 and 5.
        ("012e", "00000f03012d", "000001000000"),
        ("012f", "00000d02010d", "000001000000"),
        ("0130", "00000a010101", "000001000000"),
        ("0131", "000001000000", "000001000000"),
        // q = 300.
        ("0258", "000001000000", "000001000000"),
    ] {
        let output = format!("{ones}\n{small}\n09000000\n");
        lists(format!("010100200010{digits}\n{floats}\n").as_bytes(), &output);
        // P = 1 is smaller than what q leaves, unless that is none.
        let cut = |line: &str, head: &str| match line {
            "000001000000" => line.to_string(),
            _ => format!("00000a01{head}"),
        };
        let output = format!("{}\n{}\n09000000\n", cut(ones, "0101"), cut(small, "d900"));
        lists(format!("010100010010{digits}\n{floats}\n").as_bytes(), &output);
    }
}

/// W = 0 stands for 33N + 14 in exact mode, both kinds, and for 8N in lossy mode. The slot is listed as whole bytes.
#[test]
fn a_width_of_0() {
    for (dimension, n, exact) in [(1, 4, 19), (2, 16, 68), (3, 64, 266), (4, 256, 1_058)] {
        let block = |word: &str| word.repeat(n) + "\n";
        // 6 bits of zeros; 11111, 31 zeros and 110.
        let zeros = format!("00000601{}\n", "00".repeat(exact));
        let ones = format!("000027201f00000030{}\n", "00".repeat(exact - 5));
        let input = format!("000{dimension}012000000000\n{}{}", block("00000000"), block("00000001"));
        lists(input.as_bytes(), &(zeros + &ones));
        // A single 0, and P5.
        let zeros = format!("00000100{}\n", "00".repeat(exact));
        let ones = format!("00001503010a0b{}\n", "00".repeat(exact - 3));
        let input = format!("010{dimension}012000000000\n{}{}", block("00000000"), block("3f800000"));
        lists(input.as_bytes(), &(zeros + &ones));
        // 32 empty planes, of which N bytes take all.
        let zeros = format!("00002020{}\n", "00".repeat(n));
        lists(format!("000{dimension}002000000000\n{}", block("00000000")).as_bytes(), &zeros);
        // The longest block, 33N + 4 ones. 8N bits are too few for it, and 33N + 4 enough.
        let words: String = longest(dimension).iter().map(|word| format!("{word:08x}")).collect();
        let ones = 33 * n + 4;
        let code = format!("{}{}", "ff".repeat(ones / 8), if ones % 8 == 4 { "0f" } else { "" });
        let done = format!("00{ones:04x}20{code}{}\n", "00".repeat(exact - code.len() / 2));
        lists(format!("000{dimension}012000000000\n{words}\n").as_bytes(), &done);
        let refused = format!("0a{ones:04x}00\n");
        lists(format!("000{dimension}0120{:04x}0000\n{words}\n", 8 * n).as_bytes(), &refused);
    }
}

/// Numbers from 0x259, 601, on are refused with 13, in every kind and mode, and after rows 1 to 5.
#[test]
fn lowest_exponents_that_are_refused() {
    for digits in ["0259", "025a", "0300", "7fff", "8000", "fed4", "ffff"] {
        for head in ["000100200030", "000101200030", "010100200030", "010401200000"] {
            lists(format!("{head}{digits}\n{ONES}").as_bytes(), "0d000000\n");
        }
        lists(format!("000101200001{digits}\n{ONES}").as_bytes(), "05000000\n");
        lists(format!("000101000030{digits}\n{ONES}").as_bytes(), "04000000\n");
        lists(format!("00010120003g{digits}\n{ONES}").as_bytes(), "0c000000\n");
    }
    for digits in ["025A", "25 8", "-001", "+001"] {
        lists(format!("000101200030{digits}\n{ONES}").as_bytes(), "0c000000\n");
    }
}

#[test]
fn no_lines_and_only_a_first_line() {
    lists(b"", "0c000000\n");
    lists(b"\n", "0c000000\n");
    lists(GOOD.as_bytes(), "");
    lists(GOOD.trim_end().as_bytes(), "0c000000\n");
    lists((GOOD.to_string() + "\n").as_bytes(), "0c000000\n");
    lists((GOOD.to_string() + "0").as_bytes(), "0c000000\n");
}

#[test]
fn refused_first_lines_stop_the_program() {
    for (first, answer) in [
        ("0200000000010259", "01000000\n"),
        ("0100000000010259", "02000000\n"),
        ("0105000000010000", "02000000\n"),
        ("0001020000010259", "03000000\n"),
        ("0001010000010259", "04000000\n"),
        ("0001002100300000", "04000000\n"),
        ("0001012000010259", "05000000\n"),
        ("00010120000f0000", "05000000\n"),
        ("00010120210f0258", "05000000\n"),
        ("00050120210f0000", "02000000\n"),
        ("00040120210f0000", "05000000\n"),
        ("0001012000300259", "0d000000\n"),
        ("0104002020000259", "0d000000\n"),
        ("ffffffffffffffff", "01000000\n"),
    ] {
        lists(format!("{first}\n{ONES}{ONES}").as_bytes(), answer);
        // Row 12 comes before the others.
        lists(first.as_bytes(), "0c000000\n");
        lists(format!("{first}\r\n{ONES}").as_bytes(), "0c000000\n");
    }
}

#[test]
fn first_lines_of_other_lengths() {
    for length in 0..if is_long() { 2_000 } else { 150usize } {
        if length != 16 {
            let line = "0001012000300000".repeat(length.div_ceil(16))[..length].to_string();
            lists(format!("{line}\n{ONES}").as_bytes(), "0c000000\n");
        }
    }
    // Document 01's own line of 12 digits, and others of 14, 15, 17, 18 and 20.
    let good = "00010120003000000000";
    for first in [12, 14, 15, 17, 18, 20].map(|length| &good[..length]) {
        lists(format!("{first}\n{GOOD}{ONES}").as_bytes(), "0c000000\n");
    }
}

#[test]
fn first_lines_with_a_wrong_byte() {
    for place in 0..16 {
        for &byte in WRONG {
            let mut input = format!("{GOOD}{ONES}").into_bytes();
            input[place] = byte;
            lists(&input, "0c000000\n");
        }
    }
    for byte in 0..=255 {
        let mut input = format!("{GOOD}{ONES}").into_bytes();
        input[byte as usize % 17] = byte;
        compare(&input);
    }
}

/// Every kind, dimension, mode and number of planes that two digits can say, and widths and lowest exponents on both sides of
/// each bound and beyond, each with three lines for blocks.
#[test]
fn every_number_of_a_first_line() {
    let mut random = Random::new(4);
    let mut lines = |first: First| {
        let mut input = first.line();
        let words: Vec<u32> = (0..first.block_len()).map(|_| random.word() >> 20).collect();
        input.extend(line_of(&words));
        input.extend(line_of(&vec![1; first.block_len()]));
        input.extend(b"0\n");
        compare(&input);
    };
    let good = First { kind: 0, dimension: 1, mode: 1, planes: 32, width: 136, lowest: ALL_EXPONENTS };
    for number in 0..=255 {
        lines(First { kind: number, ..good });
        lines(First { dimension: number, ..good });
        lines(First { mode: number, ..good });
        lines(First { planes: number, mode: number & 1, ..good });
    }
    let widths: Vec<u32> = if is_long() {
        (0..=0xffff).collect()
    } else {
        (0..64)
            .chain(1000..1050)
            .chain(8_440..8_480)
            .chain((4..16).map(|bit| 1 << bit))
            .chain([0xfff0, 0xffff])
            .collect()
    };
    widths.into_iter().for_each(|width| lines(First { width, mode: width & 1, ..good }));
    let last = if is_long() { 0xffff } else { MOST + 20 };
    let lowests = (0..=last).chain((9..16).map(|bit| 1 << bit)).chain([0xfed4, 0xffff]);
    lowests.for_each(|lowest| lines(First { kind: 1, mode: u32::from(lowest % 5 == 0), lowest, ..good }));
}
