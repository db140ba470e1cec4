//! A copy that does not come to its end leaves nothing.

use crate::room::{PROGRAM, Room};
use std::fs::File;
use std::io::{BufRead, BufReader};
use std::os::unix::fs::OpenOptionsExt;
use std::os::unix::process::ExitStatusExt;
use std::process::{Command, Stdio};

const WORDS: [&str; 8] = ["--kind", "floats", "--dimension", "1", "--width", "16", "old", "new"];

/// Linux's number of the signal that a process gets which writes more than its limit.
const SIGXFSZ: i32 = 25;
const SIGKILL: i32 = 9;

/// Linux's flag for a file without a name.
const O_TMPFILE: i32 = 0o20_200_000;

/// Zeros that are copied in this number of runs.
fn of_runs(runs: usize) -> Room {
    Room::with(&vec![0; 2 * 3_584 * runs])
}

/// Nothing is left but the old file. Where the file system has no unnamed files, a program that was killed leaves new.part.
fn assert_nothing_is_left(room: &Room) {
    let mut options = File::options();
    let unnamed = options.write(true).custom_flags(O_TMPFILE).open(room.path(""));
    let part = ["new.part", "old"];
    let left = if unnamed.is_ok() { &part[1..] } else { &part };
    assert_eq!(room.names(), left);
}

/// A shell that runs the program with files of at most 128 blocks of 512 or 1,024 bytes.
fn limited(before: &str) -> Command {
    let mut shell = Command::new("sh");
    let script = format!("ulimit -c 0; ulimit -f 128; {before} exec \"$0\" \"$@\"");
    shell.args(["-c", &script, PROGRAM]).args(WORDS);
    shell
}

/// Writing ends the program in the middle of a run.
#[test]
fn a_signal_while_it_writes() {
    let room = of_runs(4);
    let status = limited("").current_dir(room.path("")).stderr(Stdio::null()).status().unwrap();
    assert_eq!(status.signal(), Some(SIGXFSZ));
    assert_nothing_is_left(&room);
}

/// The same limit as an error: the message names the new file.
#[test]
fn an_error_while_it_writes() {
    let room = of_runs(4);
    let ended = room.end(&mut limited("trap '' XFSZ;"));
    assert_eq!(ended.status, Some(1));
    let last = ended.said.lines().last().unwrap();
    assert!(last.starts_with("windlassow copy: new: File too large"), "{last}");
    assert_eq!(room.names(), ["old"]);
}

/// Kills the program after it has said that it wrote a tenth. False if it came to its end before that.
fn is_killed_in_time() -> bool {
    let room = of_runs(40);
    let mut command = Command::new(PROGRAM);
    let mut child = command.args(WORDS).current_dir(room.path("")).stderr(Stdio::piped()).spawn().unwrap();
    let mut lines = BufReader::new(child.stderr.take().unwrap()).lines().map_while(Result::ok);
    assert!(lines.any(|line| line.starts_with("windlassow copy: wrote ")), "it does not say how far it is");
    child.kill().unwrap();
    if child.wait().unwrap().signal() == Some(SIGKILL) {
        assert_nothing_is_left(&room);
        return true;
    }
    assert_eq!(room.content("new").len(), 40 * 65_408);
    false
}

#[test]
fn a_kill_while_it_writes() {
    assert!((0..20).any(|_| is_killed_in_time()), "the program is too fast to be killed");
}

/// A standard error that is full or closed does not stop a copy.
#[test]
fn messages_that_cannot_be_written() {
    let room = of_runs(2);
    let full = File::options().write(true).open("/dev/full").unwrap();
    let status = Command::new(PROGRAM).args(WORDS).current_dir(room.path("")).stderr(full).status().unwrap();
    assert_eq!((status.code(), room.content("new").len()), (Some(0), 2 * 65_408));
    let room = of_runs(2);
    let ended = room.end(Command::new("sh").args(["-c", "exec \"$0\" \"$@\" 2>&-", PROGRAM]).args(WORDS));
    assert_eq!((ended.status, room.content("new").len()), (Some(0), 2 * 65_408));
}
