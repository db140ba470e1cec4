//! Runs the program on an input and compares what it writes with what the reference does.

use listing::{feed, program};
use std::fs::{self, File};
use std::io::{self, Write};
use std::path::{Path, PathBuf};
use std::process::{Command, Output, Stdio};
use std::sync::atomic::{AtomicUsize, Ordering};
use std::thread;

/// Compares the program with the reference on this input, written to it at once.
pub fn compare(input: &[u8]) {
    check(input, "at once", &through_pipe(input));
}

/// The same with the input in pieces, of which the program gets one at a time.
pub fn compare_in_pieces(input: &[u8], pieces: &[&[u8]]) {
    assert_eq!(pieces.concat(), input);
    let mut command = command();
    let mut child = command.stdin(Stdio::piped()).spawn().expect("the program can be run");
    let pipe = child.stdin.take().unwrap();
    let output = thread::scope(|scope| {
        let writer = scope.spawn(|| feed(pipe, pieces.iter().copied()));
        let output = child.wait_with_output().unwrap();
        writer.join().unwrap().expect("the pipe takes the pieces");
        output
    });
    check(input, &format!("in {} pieces", pieces.len()), &output);
}

/// The same with the input in a file.
pub fn compare_from_file(input: &[u8]) {
    let file = Temporary::with(input);
    let output = command().stdin(file.open()).output().expect("the program can be run");
    check(input, "in a file", &output);
}

/// The program's output is this, and the reference's too.
pub fn lists(input: &[u8], output: &str) {
    assert_eq!(String::from_utf8_lossy(&reference::listing(input)), output, "the reference");
    compare(input);
}

/// The program with its output taken.
pub fn command() -> Command {
    let mut command = Command::new(program());
    command.stdout(Stdio::piped()).stderr(Stdio::piped());
    command
}

/// What the program does with this input, written to it at once.
pub fn through_pipe(input: &[u8]) -> Output {
    let mut child = command().stdin(Stdio::piped()).spawn().expect("the program can be run");
    let mut pipe = child.stdin.take().unwrap();
    thread::scope(|scope| {
        let writer = scope.spawn(move || pipe.write_all(input));
        let output = child.wait_with_output().unwrap();
        match writer.join().unwrap() {
            // A program that stops after a bad first line need not read the rest.
            Err(error) if error.kind() == io::ErrorKind::BrokenPipe => {}
            result => result.expect("the pipe takes the input"),
        }
        output
    })
}

fn check(input: &[u8], how: &str, output: &Output) {
    let said = String::from_utf8_lossy(&output.stderr);
    assert!(output.status.code().is_some(), "the program was ended by a signal: {}: {said}", output.status);
    assert!(said.is_empty(), "the program complains of an input with nothing to complain of: {said}");
    let expected = reference::listing(input);
    if output.stdout != expected {
        panic!("input {how}: {}", difference(input, &output.stdout, &expected));
    }
}

/// The first line in which the two outputs differ, and the input line that it answers.
fn difference(input: &[u8], given: &[u8], expected: &[u8]) -> String {
    let lines = |bytes: &[u8]| bytes.split_inclusive(|&byte| byte == b'\n').map(clipped).collect::<Vec<_>>();
    let (input, given, expected) = (lines(input), lines(given), lines(expected));
    let same = given.iter().zip(&expected).take_while(|(given, expected)| given == expected).count();
    let at = |lines: &[String], place: usize| lines.get(place).cloned().unwrap_or("no line".into());
    format!(
        "after the first line {}\nthe input line {} of {}, {}\ngets {}\nand the reference gives {}",
        at(&input, 0),
        same + 1,
        input.len(),
        at(&input, same + 1),
        at(&given, same),
        at(&expected, same)
    )
}

fn clipped(line: &[u8]) -> String {
    let text = line[..line.len().min(200)].escape_ascii();
    format!("\"{text}\"{}", if line.len() > 200 { " .." } else { "" })
}

/// A file that is removed at the end.
pub struct Temporary(PathBuf);

static FILES: AtomicUsize = AtomicUsize::new(0);

impl Temporary {
    /// A file of this content.
    pub fn with(content: &[u8]) -> Temporary {
        let name = format!("listing-{}-{}", std::process::id(), FILES.fetch_add(1, Ordering::Relaxed));
        let path = Path::new(env!("CARGO_TARGET_TMPDIR")).join(name);
        fs::write(&path, content).expect("a file can be written to the target folder");
        Temporary(path)
    }

    /// The file opened for reading.
    pub fn open(&self) -> File {
        File::open(&self.0).unwrap()
    }

    /// The file opened for writing, and empty.
    pub fn create(&self) -> File {
        File::create(&self.0).unwrap()
    }

    /// What the file holds.
    pub fn content(&self) -> Vec<u8> {
        fs::read(&self.0).unwrap()
    }
}

impl Drop for Temporary {
    fn drop(&mut self) {
        let _ = fs::remove_file(&self.0);
    }
}
