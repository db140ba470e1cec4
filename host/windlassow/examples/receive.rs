//! `receive SIZE < stream`: prints the doubles of an FPC stream as it comes, each as soon as it is known.
//!
//! SIZE is the length of the tables that the stream was written with. A line of standard output is a double: the shortest decimal
//! form that reads back to it, or of a NaN its pattern, as 0x7ff8000000000000. Standard error says what became of the transfer. The
//! doubles are the whole run only if that was closed well.
//!
//! Status: 0 the whole stream was taken; 1 it is damaged or cut off, or could not be read or printed; 2 wrong use.
#![forbid(unsafe_code)]

use std::env;
use std::io::{self, ErrorKind, Read, Write};
use std::process::ExitCode;
use windlassow::{Refusal, Transfer};

const USAGE: &str = "\
usage: receive SIZE < stream
SIZE is the length of the tables that the stream was written with: a power of two from 16 to 1024";

/// The most bytes that are taken at once.
const PIECE_LEN: usize = 4_096;

fn main() -> ExitCode {
    let Some(transfer) = opened() else {
        eprintln!("{USAGE}");
        return ExitCode::from(2);
    };
    match received(transfer, io::stdin().lock(), io::stdout().lock()) {
        Ok(doubles) => {
            eprintln!("receive: a whole stream of {doubles} doubles");
            ExitCode::SUCCESS
        }
        Err(message) => {
            eprintln!("receive: {message}");
            ExitCode::FAILURE
        }
    }
}

/// A transfer with tables of the length that the command line has. None if it is not used rightly.
fn opened() -> Option<Transfer<Vec<u64>>> {
    let words: Vec<_> = env::args_os().skip(1).collect();
    let [size] = &words[..] else { return None };
    let size = usize::from(size.to_str()?.parse::<u16>().ok()?);
    Transfer::open(vec![0; size], vec![0; size]).ok()
}

/// Prints the doubles and gives their number, or says why they are not a whole run.
fn received(
    mut transfer: Transfer<Vec<u64>>,
    mut input: impl Read,
    mut output: impl Write,
) -> Result<usize, String> {
    let (mut piece, mut doubles) = ([0; PIECE_LEN], [0; 2 * PIECE_LEN]);
    loop {
        let len = match input.read(&mut piece) {
            Err(error) if error.kind() == ErrorKind::Interrupted => continue,
            read => read.map_err(|error| format!("cannot read standard input: {error}"))?,
        };
        if len == 0 {
            let given = transfer.doubles();
            return transfer.finish().map_err(|refusal| format!("cut off after {given} doubles: {refusal}"));
        }
        let (given, is_damaged) = match transfer.feed(&piece[..len], &mut doubles) {
            Ok(given) => (given, false),
            Err(Refusal::Damaged { doubles }) => (doubles, true),
            Err(refusal) => return Err(refusal.to_string()),
        };
        print(&doubles[..given], &mut output)
            .map_err(|error| format!("cannot write to standard output: {error}"))?;
        if is_damaged {
            return Err(format!("damaged after {} doubles", transfer.doubles()));
        }
    }
}

/// Prints doubles, given as patterns, without holding any of them back.
fn print(doubles: &[u64], output: &mut impl Write) -> io::Result<()> {
    let line = |&pattern| match f64::from_bits(pattern) {
        double if double.is_nan() => format!("{pattern:#018x}\n"),
        double => format!("{double:?}\n"),
    };
    output.write_all(doubles.iter().map(line).collect::<String>().as_bytes())?;
    output.flush()
}
