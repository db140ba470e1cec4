//! The samples of the repository, and their listings as they stand beside them.

use crate::run::through_pipe;
use std::fs;
use testing::{bits, repository};

fn sample(name: &str) -> (String, String) {
    let folder = repository().join("samples");
    let text = |ending| fs::read_to_string(folder.join(format!("{name}.{ending}"))).unwrap();
    (text("txt"), text("out"))
}

#[test]
fn the_samples_list_as_they_should() {
    for name in ["blocks", "floats", "squares", "cubes", "stacks", "tolerance", "full"] {
        let (input, output) = sample(name);
        assert_eq!(String::from_utf8(reference::listing(input.as_bytes())).unwrap(), output, "the reference");
        assert_eq!(String::from_utf8(through_pipe(input.as_bytes()).stdout).unwrap(), output, "{name}");
    }
}

/// The first lines of samples/blocks.txt are document 01's example, as document 02 has it.
#[test]
fn document_01s_example_comes_first() {
    let (input, output) = sample("blocks");
    let example = "0001012000300000\n00000001000000010000000100000001\naaaaaaab55555556aaaaaaac55555558\n";
    assert!(input.starts_with(example));
    assert!(output.starts_with("000027201f0000003000\n0a008800\n"));
}

/// Four +0, four times 1.0 and four -0 in samples/floats.txt: P6, P5 and P6 again.
#[test]
fn the_floats_of_the_papers_table() {
    let (input, output) = sample("floats");
    let lines: Vec<_> = input.lines().skip(1).zip(output.lines()).collect();
    assert_eq!(lines[0], (&*"0".repeat(32), &*format!("00000100{}", "0".repeat(38))));
    // 10 00000001 01000 0 110 10, the lowest bit of each byte first, and zeros up to 146 bits; 3 planes.
    assert_eq!(lines[1], (&*"3f800000".repeat(4), &*format!("00001503010a0b{}", "0".repeat(32))));
    // 42 bits, 32 planes; 1 1 are the lowest two bits of the first byte.
    assert_eq!(lines[2].0, "80000000".repeat(4));
    assert!(lines[2].1.starts_with("00002a20"));
    assert!(["3", "7", "b", "f"].contains(&&lines[2].1[9..10]));
}

/// 64 and 256 times 4.5, the first blocks of samples/cubes.txt and samples/stacks.txt: e is 130, the integer 9 x 2^26, which
/// negabinary writes with the bits 30, 29 and 26, so six planes are needed.
#[test]
fn equal_readings_of_a_cube_and_of_a_stack() {
    for (name, words, bytes) in [("cubes", 64, 266), ("stacks", 256, 1_058)] {
        let (input, output) = sample(name);
        assert_eq!(input.lines().nth(1), Some(&*"40900000".repeat(words)));
        // 10 01000001 10100 0 110 10 00 00 10, 27 bits, the lowest bit of each byte first.
        assert_eq!(output.lines().next(), Some(&*format!("00001b0609160b02{}", "00".repeat(bytes - 4))));
    }
}

/// samples/tolerance.txt has q = -5, half a tenth of a degree: -5 + 300 = 0x127. In dimension 1 a block has m + 9 planes.
#[test]
fn a_tolerance_of_half_a_tenth_of_a_degree() {
    let (input, output) = sample("tolerance");
    assert!(input.starts_with("0101002000920127\n"));
    let lines: Vec<_> = input.lines().skip(1).zip(output.lines()).collect();
    // 4.5: e is 130, m is 3, so 12 planes. The head, 0, 110 and ten planes of two bits: 33 bits.
    assert_eq!(lines[1], (&*"40900000".repeat(4), &*format!("0000210c052d08{}", "0".repeat(32))));
    // 15.625 to 15.71875: m is 4, so 13 planes. They are written out in `testing::by_hand::planes::degrees`: 39 bits.
    assert!(lines[2].0.starts_with("417a0000417a8000") && lines[2].1.starts_with("0000270d"));
    // From -0.001 to 0.0019: below 2^-9, so no planes, and a single 0 as of zeros.
    assert!(lines[4].0.starts_with("3a03126fba83126f"));
    assert_eq!([lines[3].1, lines[4].1], [&*format!("00000100{}", "0".repeat(38)); 2]);
    // 0.002: below 2^-8, so one plane, which is empty. e is 119.
    assert_eq!(lines[5], (&*"3b03126f".repeat(4), &*format!("00000a01ef{}", "0".repeat(36))));
    // 2^24: m is 25, and P is smaller than 34.
    assert!(lines[8].0.starts_with("4b800000") && lines[8].1[6..].starts_with("20"));
}

/// The line of a code with so many planes, in a slot of so many bytes.
fn listed(code: &[bool], planes: u32, bytes: usize) -> String {
    let mut slot = vec![0u8; bytes];
    code.iter().enumerate().for_each(|(t, &bit)| slot[t / 8] |= u8::from(bit) << (t % 8));
    let digits: String = slot.iter().map(|byte| format!("{byte:02x}")).collect();
    format!("00{:04x}{planes:02x}{digits}", code.len())
}

/// samples/full.txt has exact integers and W = 0, full slots of 33N + 14 bits: 146, which are 19 bytes. In slots of 8N bits, 32, the
/// first two lines would have been answered 10.
#[test]
fn full_slots() {
    let (input, output) = sample("full");
    assert!(input.starts_with("0001012000000000\n"));
    let lines: Vec<_> = input.lines().skip(1).zip(output.lines()).collect();
    // P2, 11111, 31 zeros and 110; P3, 136 ones; zeros, P1.
    assert_eq!(lines[0], (&*"00000001".repeat(4), &*format!("000027201f00000030{}", "00".repeat(14))));
    let longest = format!("00008820{}0000", "ff".repeat(17));
    assert_eq!(lines[1], ("aaaaaaab55555556aaaaaaac55555558", &*longest));
    assert_eq!(lines[3], (&*"0".repeat(32), &*format!("00000601{}", "00".repeat(19))));
    // Four times 256: p is 24, 23 as 11101, planes 31 to 9 empty, 110. 31 bits, which fit 32 too.
    assert_eq!(lines[2], (&*"00000100".repeat(4), &*format!("00001f1817000030{}", "00".repeat(15))));
    // 366 366 367 368 have the differences 366 0 1 -1, in negabinary 110 1011 0010, 0, 1 and 11. Planes 31 to 11 are empty. Plane 10
    // is 110, the planes 9 to 2 are a bit of the first and a test. In plane 1 a scan passes two places to the last one; then all bits
    // of plane 0 are leading ones.
    let code = format!("11111 {} 110 1000100010100000 1100 0011", "0".repeat(21));
    assert_eq!(lines[4], ("0000016e0000016e0000016f00000170", &*listed(&bits(&code), 32, 19)));
    assert_eq!(lines.last().map(|line| line.1), Some("0c000000"));
}

/// The picture of README.md: fields of the input and of the output stand in one column, what they mean in another.
#[test]
fn the_picture_in_the_readme() {
    let page = fs::read_to_string(repository().join("README.md")).unwrap();
    let (_, after) = page.split_once("\n## List a file of blocks\n").expect("the README has the section");
    let (_, block) = after.split_once("\n```text\n").expect("a picture follows");
    let (input, output) = block.split_once("\n\nout").expect("the picture has both parts");
    let lines = |part: &str| -> String {
        let fields = |line: &str| line.get(6..44).unwrap_or(&line[6..]).replace(' ', "") + "\n";
        part.lines().take_while(|line| *line != "```").map(fields).collect()
    };
    let expected = lines(&format!("out{output}"));
    assert_eq!(expected, "000027201f0000003000\n0a008800\n0c000000\n");
    assert_eq!(String::from_utf8(through_pipe(lines(input).as_bytes()).stdout).unwrap(), expected);
}
