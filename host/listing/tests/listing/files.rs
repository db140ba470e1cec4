//! Standard input and output that are no pipes, and such as cannot be read or written.

use crate::make::{ALL_EXPONENTS, First, good_line, input};
use crate::run::{Temporary, command, compare_from_file, through_pipe};
use listing::{program, wait_for};
use random::Random;
use std::fs::File;
use std::io::Read;
use std::process::{Command, Stdio};
use std::time::Duration;

/// More than long enough for what these tests ask of the program.
const PATIENCE: Duration = Duration::from_secs(20);

#[test]
fn from_a_file() {
    for seed in 0..100 {
        compare_from_file(&input(&mut Random::new(20_000 + seed), 200));
    }
}

#[test]
fn from_a_file_to_a_file() {
    let input = input(&mut Random::new(13), 3_000);
    let (from, to) = (Temporary::with(&input), Temporary::with(b""));
    let status = Command::new(program()).stdin(from.open()).stdout(to.create()).status().unwrap();
    assert!(status.code().is_some());
    assert!(to.content() == reference::listing(&input));
}

#[test]
fn from_nothing() {
    let output = command().stdin(File::open("/dev/null").unwrap()).output().unwrap();
    assert_eq!(String::from_utf8_lossy(&output.stdout), "0c000000\n");
    assert!(output.stderr.is_empty());
}

/// Runs a line of the shell, in which `$0` is the program, with this input, and gives what it says on standard
/// error.
fn complaint(line: &str, input: &[u8]) -> String {
    let file = Temporary::with(input);
    let mut shell = Command::new("sh");
    shell.args(["-c", line]).arg(program()).stdin(file.open()).stdout(Stdio::null()).stderr(Stdio::piped());
    let mut child = shell.spawn().expect("the shell can be run");
    wait_for(&mut child, PATIENCE).expect("the program ends");
    let mut said = String::new();
    child.stderr.unwrap().read_to_string(&mut said).unwrap();
    said
}

/// Short enough to be written at once, and far longer than any buffer.
fn inputs() -> [Vec<u8>; 3] {
    let first = First { kind: 0, dimension: 2, mode: 1, planes: 32, width: 1024, lowest: ALL_EXPONENTS };
    let line = good_line(&mut Random::new(14), first);
    [b"bad\n".to_vec(), [first.line(), line.clone()].concat(), [first.line(), line.repeat(20_000)].concat()]
}

#[test]
fn a_full_disk_is_complained_of() {
    for input in inputs() {
        assert!(!complaint("exec \"$0\" >/dev/full", &input).is_empty());
    }
}

/// The pipe may take what is short before its reader ends, so this needs the long input.
#[test]
fn a_pipe_that_nobody_reads_is_complained_of() {
    let [_, _, long] = inputs();
    assert!(!complaint("trap '' PIPE; \"$0\" | true", &long).is_empty());
}

#[test]
fn a_closed_output_is_complained_of() {
    for input in inputs() {
        assert!(!complaint("exec \"$0\" >&-", &input).is_empty());
    }
}

/// With the signal of a closed pipe left as it is, the program ends by it or says something. It ends.
#[test]
fn a_closed_pipe_ends_the_program() {
    let [_, _, long] = inputs();
    let file = Temporary::with(&long);
    let mut child = command().stdin(file.open()).spawn().unwrap();
    drop(child.stdout.take());
    let status = wait_for(&mut child, PATIENCE).expect("the program ends");
    let mut said = String::new();
    child.stderr.unwrap().read_to_string(&mut said).unwrap();
    assert!(status.code().is_none() || !said.is_empty(), "the program says nothing of a closed pipe");
}

#[test]
fn a_folder_as_input_is_complained_of() {
    assert!(!complaint("exec \"$0\" </", b"").is_empty());
}

#[test]
fn a_closed_input_is_complained_of() {
    assert!(!complaint("exec \"$0\" <&-", b"").is_empty());
}

/// An input of a bad first line and a hundred megabytes gets its answer, whether the program reads on or not.
#[test]
fn a_bad_first_line_before_much_more() {
    let input = [&b"0001012000310000\r\n"[..], &vec![b'0'; 100 << 20]].concat();
    assert_eq!(through_pipe(&input).stdout, b"0c000000\n");
}
