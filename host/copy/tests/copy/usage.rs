//! The command line: every wrong use is told in a line, with status 2, and nothing is written.

use crate::room::{PROGRAM, Room};
use std::ffi::OsStr;
use std::os::unix::ffi::OsStrExt;
use std::process::Command;

/// A folder with a good archive.
fn room() -> Room {
    Room::with(&[0; 16])
}

fn wrong(line: &str, part: &str) {
    let room = room();
    room.run(line.split_whitespace()).with_line(2, part);
    assert_eq!(room.names(), ["old"], "{line}");
}

#[test]
fn missing_words() {
    wrong("", "--kind is missing: integers or floats");
    wrong("old new", "--kind is missing");
    wrong("--dimension 1 --width 8N old new", "--kind is missing");
    wrong("--kind floats --width 8N old new", "--dimension is missing: 1, 2, 3 or 4");
    wrong("--kind floats --dimension 1 old new", "--width is missing: a number from 16 to 8462, 8N or 0");
    wrong("--kind floats --dimension 1 --width 8N", "the files OLD and NEW are missing");
    wrong("--kind floats --dimension 1 --width 8N old", "the file NEW is missing");
    wrong("--kind floats --dimension 1 old new --width", "--width has no value");
    wrong("--kind", "--kind has no value");
}

#[test]
fn words_too_many() {
    wrong("--kind floats --dimension 1 --width 8N old new more", "'more' is one file too many");
    wrong("--kind floats --kind floats --dimension 1 --width 8N old new", "--kind is given twice");
    wrong("--kind floats --dimension 1 --width 8N old new --width=8N", "--width is given twice");
    wrong("--dimension=1 --kind floats --dimension 2 --width 8N old new", "--dimension is given twice");
    wrong("--kind floats --dimension 1 --width 8N --force old new", "there is no option '--force'");
    wrong("--kind floats --dimension 1 --width 8N -f old new", "there is no option '-f'");
    wrong("--mode=exact --kind floats --dimension 1 --width 8N old new", "there is no option '--mode'");
}

#[test]
fn wrong_values() {
    for kind in ["float", "Floats", "1", "--dimension", "floats,"] {
        wrong(
            &format!("--kind {kind} --dimension=1 --width 8N old new"),
            &format!("--kind is integers or floats, not '{kind}'"),
        );
    }
    for dimension in ["0", "5", "01", "-1", "two", "1..4"] {
        wrong(
            &format!("--kind floats --dimension {dimension} --width 8N old new"),
            &format!("--dimension is 1, 2, 3 or 4, not '{dimension}'"),
        );
    }
    for width in [
        "1",
        "15",
        "8463",
        "8,462",
        "-1",
        "+16",
        "032",
        "00",
        "8n",
        "8",
        "32.0",
        "99999999999999999999",
        "0x20",
        "4N",
    ] {
        wrong(
            &format!("--kind floats --dimension 1 --width {width} old new"),
            &format!("--width is a number from 16 to 8462, 8N or 0, not '{width}'"),
        );
    }
    wrong("--kind= --dimension 1 --width 8N old new", "--kind is integers or floats, not ''");
}

/// Messages stay in a line whatever is named.
#[test]
fn unusual_words() {
    let room = room();
    let named = ["--kind", "a\nb", "--dimension", "1", "--width", "8N", "old", "new"];
    room.run(named).with_line(2, "not 'a\\nb'");
    room.run(["--kind=floats", "--dimension=1", "--width=8N", "", "new"])
        .with_line(2, "a file's name is empty");
    room.run(["--kind=floats", "--dimension=1", "--width=8N", "old", ""])
        .with_line(2, "a file's name is empty");
    room.run(["--kind=floats", "--dimension=1", "--width=8N", "no\nfile", "new"]).with_line(1, "no\\nfile: ");
    let word = OsStr::from_bytes(b"--\xff");
    room.end(Command::new(PROGRAM).arg(word)).with_line(2, "there is no option '--");
    assert_eq!(room.names(), ["old"]);
}

/// Options in any order and in both forms, files that begin with a dash, and names that are no text.
#[test]
fn good_words() {
    for line in [
        "--kind floats --dimension 1 --width 8N old new",
        "--width=8N --kind=floats --dimension=1 old new",
        "old --width 32 new --kind=floats --dimension 1",
        "old new --dimension 1 --width=32 --kind floats",
        "--kind floats --dimension 1 --width 8N -- old new",
    ] {
        let room = room();
        let ended = room.run(line.split_whitespace());
        ended.with_line(0, "copied 4 slots of 32 bits to slots of 146 bits: new, 73 bytes");
        assert_eq!(room.content("new"), [0; 73], "{line}");
    }
    let room = room();
    let ended = room.run("--kind floats --dimension 1 --width 8N -- old --new".split(' '));
    ended.with_line(0, ": --new, 73 bytes");
    let mut command = Command::new(PROGRAM);
    command.args("--kind floats --dimension 1 --width 8N old".split(' ')).arg(OsStr::from_bytes(b"n\xff"));
    room.end(&mut command).with_line(0, "73 bytes");
}

/// The text of usage.txt, on standard output, whatever else is asked.
#[test]
fn help() {
    for line in ["--help", "-h", "--kind nonsense --help", "old new --help"] {
        let room = room();
        let output = Command::new(PROGRAM).args(line.split(' ')).current_dir(room.path("")).output().unwrap();
        assert_eq!((output.status.code(), output.stderr.len()), (Some(0), 0));
        assert_eq!(String::from_utf8(output.stdout).unwrap(), copy_archive::USAGE);
        assert_eq!(room.names(), ["old"]);
    }
    assert!(copy_archive::USAGE.lines().all(|line| line.len() <= 102));
}
