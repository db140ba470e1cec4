//! The listing program's lines.

use reference::listing;

fn lists(input: &[u8], output: &str) {
    assert_eq!(String::from_utf8(listing(input)).unwrap(), output);
}

const FIRST: &str = "0001012000300000\n";
const ONES: &str = "00000001000000010000000100000001\n";

fn after_first(lines: &[u8]) -> Vec<u8> {
    [FIRST.as_bytes(), lines].concat()
}

#[test]
fn bad_first_lines() {
    for input in [
        "",
        "\n",
        "0001012000300000",
        "000101200030000\n",
        "00010120003000000\n",
        "000101200030000G\n",
        "000101200030000A\n",
        "00010120003G0000\n",
        "0001012000300000\r\n",
        " 001012000300000\n",
        // Document 01's own line, of twelve digits, and one of fourteen and of eighteen.
        "000101200030\n",
        "00010120003000\n",
        "000101200030000000\n",
        // A kind that is refused, and too many digits: 12 comes before 1.
        "020101200030000000\n",
    ] {
        lists(input.as_bytes(), "0c000000\n");
    }
    lists(b"0001012\x000300000\n", "0c000000\n");
    // Nothing is listed after a bad first line.
    lists(("\n".to_string() + FIRST + ONES).as_bytes(), "0c000000\n");
}

#[test]
fn refused_first_lines_stop_the_program() {
    for (first, output) in [
        ("0200000000010259\n", "01000000\n"),
        ("0105000000010259\n", "02000000\n"),
        ("0001020000010259\n", "03000000\n"),
        ("0001010000010259\n", "04000000\n"),
        ("0001002100300000\n", "04000000\n"),
        ("0001012000010259\n", "05000000\n"),
        ("00010120000f0000\n", "05000000\n"),
        ("00010120210f0000\n", "05000000\n"),
        ("0001012000300259\n", "0d000000\n"),
        ("0101002000308000\n", "0d000000\n"),
        ("010100200030ffff\n", "0d000000\n"),
        ("ffffffffffffffff\n", "01000000\n"),
    ] {
        lists((first.to_string() + ONES).as_bytes(), output);
    }
}

#[test]
fn no_blocks_no_lines() {
    lists(FIRST.as_bytes(), "");
}

#[test]
fn bad_block_lines_and_the_next_is_read() {
    let good = "000027201f0000003000\n";
    for bad in [
        "\n",
        "0000000100000001000000010000000\n",
        "000000010000000100000001000000010\n",
        "0000000100000001000000010000000A\n",
        "00000001 0000000100000001000000\n",
        "00000001000000010000000100000001\r\n",
    ] {
        lists(&after_first((bad.to_string() + ONES).as_bytes()), &format!("0c000000\n{good}"));
    }
    // The length of another dimension is ill-formed too.
    for digits in [128, 512, 2_048] {
        lists(&after_first(("0".repeat(digits) + "\n").as_bytes()), "0c000000\n");
    }
    // A last line without its newline.
    lists(&after_first(ONES.trim_end().as_bytes()), "0c000000\n");
    lists(&after_first((ONES.to_string() + "0").as_bytes()), &format!("{good}0c000000\n"));
}

/// Zeros in every dimension: six bits of code in a slot of 16. A digit less or more is ill-formed.
#[test]
fn lines_of_every_dimension() {
    for (dimension, digits) in [(1, 32), (2, 128), (3, 512), (4, 2_048)] {
        let lines = [digits - 1, digits, digits + 1].map(|count| "0".repeat(count) + "\n").concat();
        lists(
            format!("000{dimension}012000100000\n{lines}").as_bytes(),
            "0c000000\n000006010000\n0c000000\n",
        );
    }
}

#[test]
fn widths_that_are_no_whole_bytes() {
    // W = 0x11: three bytes, of which seven bits are spare.
    let input = "0001002000110000\nffffffffffffffffffffffffffffffff\n";
    let output = String::from_utf8(listing(input.as_bytes())).unwrap();
    assert_eq!(output.len(), 2 + 4 + 2 + 6 + 1);
    assert!(output.ends_with("00\n") || output.ends_with("01\n"));
    // W = 0 stands for 8N in lossy mode: four bytes. 32 empty planes.
    lists(b"0001002000000000\n00000000000000000000000000000000\n", "0000202000000000\n");
    // In exact mode it stands for 33N + 14, 146 bits: 19 bytes, of which six bits are spare.
    let zeros = format!("00000601{}\n", "00".repeat(19));
    let longest = format!("00008820{}{}\n", "ff".repeat(17), "00".repeat(2));
    lists(
        b"0001012000000000\n00000000000000000000000000000000\naaaaaaab55555556aaaaaaac55555558\n",
        &(zeros + &longest),
    );
}

#[test]
fn lossy_floats_and_row_9() {
    let input = "01010020003f0000\n7f800000000000000000000000000000\n00000000800000000000000000000000\n";
    lists(input.as_bytes(), "09000000\n000001000000000000000000\n");
}

/// Four times 1.0: m = 1, so with q = 4, 304 = 0x130, there is a plane, and with q = 5, 305 = 0x131, none. q = 300 is 0x258.
#[test]
fn the_last_four_digits_are_q_and_300() {
    let ones = "3f800000".repeat(4) + "\n";
    let with = |digits: &str| format!("010100200010{digits}\n{ones}");
    lists(with("0130").as_bytes(), "00000a010101\n");
    lists(with("0131").as_bytes(), "000001000000\n");
    lists(with("0258").as_bytes(), "000001000000\n");
    lists(with("0259").as_bytes(), "0d000000\n");
    // q = 3 and q = 2: two planes, 0 and 110, and three, 10 more.
    lists(with("012f").as_bytes(), "00000d02010d\n");
    lists(with("012e").as_bytes(), "00000f03012d\n");
    // As with q = -300 all planes that the slot takes; exact mode takes no notice.
    lists(with("0000").as_bytes(), "00001003012d\n");
    lists(format!("0101012000180258\n{ones}").as_bytes(), "00001503010a0b\n");
}
