//! The example program `receive`, run as it is built. `cargo test` builds it first; `cargo test --test receive` alone does not.

use std::env;
use std::fs::{self, File};
use std::io::{BufRead, BufReader, Read, Write};
use std::path::PathBuf;
use std::process::{Child, Command, Output, Stdio};
use std::sync::mpsc::{Receiver, channel};
use std::thread;
use std::time::Duration;
use testing::repository;
use windlassow::fpc_write;

/// The temperatures of a refrigerator in degrees. The door is opened after the seventh.
const READINGS: [f64; 13] = [4.0, 4.0, 4.0625, 4.125, 4.1875, 4.25, 4.25, 6.5, 5.75, 5.0, 4.5, 4.3, 4.1];

/// How the stream of these begins, with tables of 64.
///
/// 4.0 is 0x4010000000000000. Both predictions of the first are 0: fcm, code 0, eight bytes. h becomes 0x4010 mod 64 = 16, g stays
/// 0x401000 mod 64 = 0. Of the second F[16] = 0 is nearer than twice 4.0: the same again; D[0] becomes 0.
///
/// 4.0625 is 4.0 + 2^46 as a pattern, and both sides predict 4.0: fcm, code 2, six bytes; D[0] becomes 2^46, of which g stays
/// 64 mod 64 = 0. h stays 16. dfcm predicts 4.125 = 4.0625 + 2^46, then 4.1875 and 4.25: three half bytes f. With 4.25 h becomes
/// 0x4011 mod 64 = 17.
///
/// Of 4.25 again F[17] = 0, and dfcm predicts 4.3125: dfcm, code 2, the xor 2^46. D[0] becomes 0. 6.5 is 0x401a000000000000, and both
/// sides predict 4.25, 0x4011000000000000: fcm, code 1, seven bytes, the highest 0x1a xor 0x11 = 0x0b.
const FIRST: [(&[u8], &[&str]); 4] = [
    (&[0x00, 0, 0, 0, 0, 0, 0, 0x10, 0x40, 0, 0, 0, 0, 0, 0, 0x10, 0x40], &["4.0", "4.0"]),
    (&[0x2f, 0, 0, 0, 0, 0, 0x40], &["4.0625", "4.125"]),
    (&[0xff], &["4.1875", "4.25"]),
    (&[0xa1, 0, 0, 0, 0, 0, 0x40, 0, 0, 0, 0, 0, 0, 0x0b], &["4.25", "6.5"]),
];

/// How long the program may take for what is known. It is far more than it takes, since the machine may be busy.
const LIMIT: Duration = Duration::from_secs(20);

fn sample() -> Vec<u8> {
    fs::read(repository().join("samples/readings.fpc")).expect("the sample is there")
}

/// What is printed of the sample.
fn printed() -> String {
    fs::read_to_string(repository().join("samples/readings.doubles")).expect("the doubles are there")
}

/// The example, which stands beside the folder of this test's program.
fn program() -> PathBuf {
    let test = env::current_exe().expect("this program has a path");
    let program = test.ancestors().nth(2).expect("it stands in a folder").join("examples/receive");
    assert!(
        program.exists(),
        "{} is missing: run 'cargo test', or 'cargo build --examples' before a single test",
        program.display()
    );
    program
}

fn receive(words: &[&str]) -> Command {
    let mut command = Command::new(program());
    command.args(words).stdin(Stdio::piped()).stdout(Stdio::piped()).stderr(Stdio::piped());
    command
}

/// Runs it with all bytes of its input, which are few enough for a pipe.
fn received(size: &str, bytes: &[u8]) -> Output {
    let mut child = receive(&[size]).spawn().expect("the program can be run");
    child.stdin.take().expect("it is piped").write_all(bytes).expect("the pipe takes the bytes");
    child.wait_with_output().expect("the program ends")
}

/// What it printed, and on standard error, and its status.
fn told(output: &Output) -> (String, String, Option<i32>) {
    let text = |bytes: &[u8]| String::from_utf8(bytes.to_vec()).expect("it prints text");
    (text(&output.stdout), text(&output.stderr), output.status.code())
}

/// A stream of which not all is taken: what is printed, how its message begins, and status 1.
fn refused(bytes: &[u8], doubles: &str, message: &str) {
    let (out, err, status) = told(&received("64", bytes));
    assert_eq!((&out[..], status), (doubles, Some(1)), "{err}");
    assert!(err.starts_with(message) && err.lines().count() == 1, "{err}");
}

/// The lines of a child's standard output as they come.
fn lines(child: &mut Child) -> Receiver<String> {
    let (sender, receiver) = channel();
    let output = BufReader::new(child.stdout.take().expect("it is piped"));
    thread::spawn(move || {
        // An error here is that the test has ended.
        output.lines().map_while(Result::ok).try_for_each(|line| sender.send(line))
    });
    receiver
}

/// The sample is what the library writes of the readings, and begins as worked out by hand; its text has the readings too.
#[test]
fn the_sample_is_the_stream_of_the_readings() {
    let (mut f, mut d, mut out) = ([0; 64], [0; 64], [0; 119]);
    let len = fpc_write(&mut f, &mut d, &READINGS.map(f64::to_bits), &mut out).unwrap();
    assert_eq!(sample(), out[..len]);
    assert!(sample().starts_with(&FIRST.map(|(bytes, _)| bytes).concat()));
    // 4.1 is the first of a pair, and the odd end follows it.
    assert!(sample().ends_with(&[0x00]));
    let read: Vec<f64> = printed().lines().map(|line| line.parse().unwrap()).collect();
    assert_eq!(read, READINGS);
    let first: Vec<&str> = FIRST.into_iter().flat_map(|(_, lines)| lines.iter().copied()).collect();
    assert!(printed().lines().take(8).eq(first));
}

#[test]
fn a_whole_stream() {
    let whole = |doubles: usize| format!("receive: a whole stream of {doubles} doubles\n");
    assert_eq!(told(&received("64", &sample())), (printed(), whole(13), Some(0)));
    assert_eq!(told(&received("64", &[])), (String::new(), whole(0), Some(0)));
}

/// Byte by byte: the lines of the first pairs come before any further byte is written.
#[test]
fn doubles_come_before_the_stream_ends() {
    let mut child = receive(&["64"]).spawn().expect("the program can be run");
    let printed_lines = lines(&mut child);
    let mut input = child.stdin.take().expect("it is piped");
    let mut all = Vec::new();
    for (bytes, doubles) in FIRST {
        for byte in bytes {
            input.write_all(&[*byte]).and_then(|()| input.flush()).expect("the pipe takes a byte");
        }
        for double in doubles {
            let line = printed_lines.recv_timeout(LIMIT).expect("a double that is known is printed");
            assert_eq!(line, *double);
            all.push(line);
        }
    }
    for byte in &sample()[FIRST.map(|(bytes, _)| bytes.len()).iter().sum()..] {
        input.write_all(&[*byte]).and_then(|()| input.flush()).expect("the pipe takes a byte");
    }
    drop(input);
    all.extend(printed_lines);
    assert!(all.iter().map(String::as_str).eq(printed().lines()), "{all:?}");
    assert_eq!(child.wait().expect("the program ends").code(), Some(0));
}

/// The first double of a pair is printed before the second has come.
#[test]
fn the_first_of_a_pair_comes_before_the_second() {
    let mut child = receive(&["64"]).spawn().expect("the program can be run");
    let printed_lines = lines(&mut child);
    let mut input = child.stdin.take().expect("it is piped");
    input.write_all(&sample()[..9]).expect("the pipe takes the bytes");
    assert_eq!(printed_lines.recv_timeout(LIMIT).expect("a double that is known is printed"), "4.0");
    drop(input);
    assert_eq!(printed_lines.iter().count(), 0);
    assert_eq!(child.wait().expect("the program ends").code(), Some(1));
}

/// Without the last byte all doubles have come, but not the end. Without the last bytes of the second pair, its first has not come.
#[test]
fn a_stream_that_is_cut_off() {
    let sample = sample();
    refused(&sample[..sample.len() - 1], &printed(), "receive: cut off after 13 doubles: ");
    refused(&sample[..23], "4.0\n4.0\n", "receive: cut off after 2 doubles: ");
    refused(&sample[..1], "", "receive: cut off after 0 doubles: ");
}

/// After the first pair 66 and 00: a double with code 6 that has code 7. And a byte after the odd end, 00 too.
#[test]
fn a_damaged_stream() {
    let mut bytes = sample();
    bytes[17] = 0x66;
    refused(&bytes, "4.0\n4.0\n", "receive: damaged after 2 doubles\n");
    for more in [0x00, 0x77] {
        refused(&[&sample()[..], &[more]].concat(), &printed(), "receive: damaged after 13 doubles\n");
    }
}

/// One double, coded as P11: half byte 0, its eight bytes, half byte 6 and a byte 00. Nothing of a NaN is lost.
#[test]
fn doubles_of_every_kind() {
    for (double, line) in [
        (0x7ff8_0000_0000_0001, "0x7ff8000000000001\n"),
        (0xfff0_0000_0000_00ff, "0xfff00000000000ff\n"),
        (0x7ff0_0000_0000_0000, "inf\n"),
        (0xfff0_0000_0000_0000, "-inf\n"),
        (0x8000_0000_0000_0000, "-0.0\n"),
        ((1.0f64 / 3.0).to_bits(), "0.3333333333333333\n"),
        (1e300f64.to_bits(), "1e300\n"),
    ] {
        let stream = [&[0x06][..], &u64::to_le_bytes(double), &[0x00]].concat();
        let (out, err, status) = told(&received("16", &stream));
        assert_eq!((&out[..], status), (line, Some(0)), "{err}");
    }
}

/// Status 2 and how it is used.
#[test]
fn wrong_arguments() {
    let wrong: [&[&str]; 11] = [
        &[],
        &["64", "64"],
        &[""],
        &["0"],
        &["8"],
        &["17"],
        &["2048"],
        &["-64"],
        &["65552"],
        &["18446744073709551680"],
        &["readings.fpc"],
    ];
    for words in wrong {
        let output = receive(words).stdin(Stdio::null()).output().expect("the program can be run");
        let (out, err, status) = told(&output);
        assert_eq!((&out[..], status), ("", Some(2)), "{words:?}");
        assert!(err.starts_with("usage: receive SIZE < stream\n"), "{words:?}: {err}");
    }
}

/// Standard input is a folder; standard output takes nothing.
#[test]
fn input_and_output_that_fail() {
    let folder = File::open(repository()).expect("the repository can be opened");
    let output = receive(&["64"]).stdin(folder).output().expect("the program can be run");
    let (out, err, status) = told(&output);
    assert_eq!((&out[..], status), ("", Some(1)));
    assert!(err.starts_with("receive: cannot read standard input: "), "{err}");

    let full = File::options().write(true).open("/dev/full").expect("there is a full device");
    let mut child = receive(&["64"]).stdout(full).spawn().expect("the program can be run");
    child.stdin.take().expect("it is piped").write_all(&sample()).expect("the pipe takes the bytes");
    let mut err = String::new();
    child.stderr.take().expect("it is piped").read_to_string(&mut err).expect("it prints text");
    assert_eq!(child.wait().expect("the program ends").code(), Some(1));
    assert!(err.starts_with("receive: cannot write to standard output: "), "{err}");
}
