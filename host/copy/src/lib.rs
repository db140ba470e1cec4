//! Copies a file of exact slots of any width to a new file with slots of 33N + 14 bits, slot k to slot k.
//!
//! A call of the library takes at most 65,536 bytes, a file may be longer: it is one row of slots, copied in runs that
//! begin and end at whole bytes in both files. The old file is read twice: first to see that all of it can be
//! read, then to write the new one, which has no name before it is whole.

mod console;
mod draft;
mod failure;
mod layout;
mod link;
mod options;
#[cfg(test)]
mod room;
mod source;
mod text;
mod unreadable;

use console::Console;
use draft::Draft;
use failure::Failure;
use options::{Asked, Job};
use source::Source;
use std::ffi::OsString;
use std::fs;
use std::io::{self, ErrorKind, IsTerminal, Write};
use std::path::Path;
use text::{counted, grouped, shown};

/// What `--help` prints.
pub const USAGE: &str = include_str!("../usage.txt");

/// Does what the words of a command line ask for and gives the exit status: 0 done, 1 not possible, 2 wrong use.
pub fn run(words: impl Iterator<Item = OsString>) -> u8 {
    let mut out = io::stderr();
    let is_terminal = out.is_terminal();
    let mut console = Console::new(&mut out, is_terminal);
    let result = match options::parse(words) {
        Ok(Asked::Help) => help(),
        Ok(Asked::Copy(job)) => copy_file(&job, &mut console),
        Err(wrong) => Err(Failure::wrong(format!("{wrong} ('./windlassow copy --help' says more)"))),
    };
    match result {
        Ok(()) => 0,
        Err(failure) => {
            console.say(&failure.message);
            failure.status
        }
    }
}

fn help() -> Result<(), Failure> {
    let mut out = io::stdout();
    let printed = out.write_all(USAGE.as_bytes()).and_then(|()| out.flush());
    printed.map_err(|error| Failure::could_not(format!("standard output: {error}")))
}

fn copy_file(job: &Job, console: &mut Console) -> Result<(), Failure> {
    let source = Source::open(job.params, &job.old)?;
    must_be_free(&job.new, &source)?;
    source.check(console)?;
    let not_written = |error: io::Error| Failure::could_not(format!("{}: {error}", shown(&job.new)));
    let mut draft = Draft::new(&job.new, source.permissions()).map_err(not_written)?;
    source.transfer(console, |bytes| draft.write(bytes).map_err(not_written))?;
    draft.publish().map_err(not_written)?;
    tell(job, &source, console);
    Ok(())
}

/// NEW is no file, link or folder yet, and there is a folder for it.
fn must_be_free(new: &Path, source: &Source) -> Result<(), Failure> {
    match fs::symlink_metadata(new) {
        Ok(_) if fs::metadata(new).is_ok_and(|there| source.is(&there)) => {
            Err(Failure::wrong(format!("{} is the old file itself", shown(new))))
        }
        Ok(_) => Err(Failure::wrong(format!("{} exists; nothing is written over it", shown(new)))),
        Err(error) if error.kind() == ErrorKind::NotFound => {
            let folder = draft::folder(new);
            match fs::metadata(folder) {
                Ok(there) if there.is_dir() => Ok(()),
                Ok(_) => Err(Failure::could_not(format!("{} is no folder", shown(folder)))),
                Err(error) => Err(Failure::could_not(format!("{}: {error}", shown(folder)))),
            }
        }
        Err(error) => Err(Failure::could_not(format!("{}: {error}", shown(new)))),
    }
}

fn tell(job: &Job, source: &Source, console: &mut Console) {
    let layout = source.layout();
    if layout.rest > 7 {
        let bits = grouped(layout.rest);
        console.say(&format!("the last {bits} bits of {} are no whole slot: not copied", shown(&job.old)));
    }
    console.say(&format!(
        "copied {} of {} bits to slots of {} bits: {}, {}",
        counted(layout.slots, "slot"),
        grouped(layout.old_bits),
        grouped(layout.new_bits),
        shown(&job.new),
        counted(layout.new_len(), "byte"),
    ));
}
