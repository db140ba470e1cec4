//! The old file, read in runs.

use crate::console::Console;
use crate::failure::Failure;
use crate::layout::{Layout, Run};
use crate::text::{grouped, shown};
use crate::unreadable::Unreadable;
use std::fs::{File, Metadata, OpenOptions};
use std::io::{self, ErrorKind};
use std::os::unix::fs::{FileExt, MetadataExt, OpenOptionsExt};
use std::path::{Path, PathBuf};
use windlassow::{Params, Refusal};

/// The old file, opened for reading only, and how it was when it was opened.
pub struct Source {
    params: Params,
    path: PathBuf,
    file: File,
    opened: Metadata,
    layout: Layout,
}

/// A run in the old and in the new file.
#[derive(Default)]
struct Buffers {
    old: Vec<u8>,
    new: Vec<u8>,
}

/// Linux's flag not to wait for a pipe's writer: a pipe is opened only to see that it is one.
const O_NONBLOCK: i32 = 0o4000;

impl Source {
    pub fn open(params: Params, path: &Path) -> Result<Source, Failure> {
        let failed = |error: io::Error| Failure::could_not(format!("{}: {error}", shown(path)));
        let file = OpenOptions::new().read(true).custom_flags(O_NONBLOCK).open(path).map_err(failed)?;
        let opened = file.metadata().map_err(failed)?;
        if !opened.is_file() {
            return Err(Failure::could_not(format!("{} is not a regular file", shown(path))));
        }
        let layout =
            Layout::new(params, opened.len()).map_err(|refusal| Failure::wrong(refusal.to_string()))?;
        Ok(Source { params, path: path.into(), file, opened, layout })
    }

    pub fn layout(&self) -> &Layout {
        &self.layout
    }

    /// Whether this is the same file.
    pub fn is(&self, other: &Metadata) -> bool {
        (self.opened.dev(), self.opened.ino()) == (other.dev(), other.ino())
    }

    /// Who may read and write it.
    pub fn permissions(&self) -> u32 {
        self.opened.mode() & 0o666
    }

    /// The first pass: fails unless every slot can be read, and then names all that cannot be.
    pub fn check(&self, console: &mut Console) -> Result<(), Failure> {
        let mut buffers = Buffers::default();
        let mut unreadable = Unreadable::default();
        for run in self.layout.runs() {
            match self.copied(run, &mut buffers)? {
                Ok(()) => {}
                Err(Refusal::UnreadableSlot { slot }) => {
                    for slot in self.unreadable_from(slot, run, &buffers.old)? {
                        unreadable.add(run.first + slot as u64, console);
                    }
                }
                Err(refusal) => return Err(self.refused(refusal)),
            }
            console.progress("read", run.first + run.slots, self.layout.slots);
        }
        self.must_be_unchanged()?;
        unreadable.list(console);
        if unreadable.total == 0 { Ok(()) } else { Err(self.has_unreadable(unreadable.total)) }
    }

    /// The second pass: hands over the bytes of the new file.
    pub fn transfer(
        &self,
        console: &mut Console,
        mut write: impl FnMut(&[u8]) -> Result<(), Failure>,
    ) -> Result<(), Failure> {
        let mut buffers = Buffers::default();
        for run in self.layout.runs() {
            // All of them could be read before.
            self.copied(run, &mut buffers)?.map_err(|_| self.changed())?;
            write(&buffers.new)?;
            console.progress("wrote", run.first + run.slots, self.layout.slots);
        }
        self.must_be_unchanged()
    }

    /// Reads a run of the old file and copies it to a run of the new one.
    fn copied(&self, run: Run, buffers: &mut Buffers) -> Result<Result<(), Refusal>, Failure> {
        buffers.old.resize(self.layout.old_run_len(run), 0);
        match self.file.read_exact_at(&mut buffers.old, self.layout.old_start(run)) {
            Err(error) if error.kind() == ErrorKind::UnexpectedEof => return Err(self.changed()),
            result => result.map_err(|error| self.failed(&error))?,
        }
        // A copy leaves bits outside of its slots as they were: those at the end of the new file are to be zero.
        buffers.new.clear();
        buffers.new.resize(self.layout.new_run_len(run), 0);
        let copied = windlassow::copy(self.params, &buffers.old, &mut buffers.new);
        Ok(copied.map(|slots| assert_eq!(slots as u64, run.slots, "the slots that a call copied")))
    }

    /// The slots of a run that cannot be read, of which this is the first.
    fn unreadable_from(&self, first: usize, run: Run, old: &[u8]) -> Result<Vec<usize>, Failure> {
        let words = self.params.block_len().map_err(|refusal| self.refused(refusal))?;
        let mut block = vec![0; words];
        let mut found = vec![first];
        for slot in first + 1..run.slots as usize {
            match windlassow::read(self.params, old, slot, &mut block) {
                Ok(_) => {}
                Err(Refusal::NotACode) => found.push(slot),
                Err(refusal) => return Err(self.refused(refusal)),
            }
        }
        Ok(found)
    }

    /// Fails if the file was written to since it was opened, or does not end where it did.
    fn must_be_unchanged(&self) -> Result<(), Failure> {
        let state = |file: &Metadata| (file.len(), file.mtime(), file.mtime_nsec());
        let now = self.file.metadata().map_err(|error| self.failed(&error))?;
        let after = self.file.read_at(&mut [0], self.opened.len()).map_err(|error| self.failed(&error))?;
        if after == 0 && state(&now) == state(&self.opened) { Ok(()) } else { Err(self.changed()) }
    }

    fn failed(&self, error: &io::Error) -> Failure {
        Failure::could_not(format!("{}: {error}", shown(&self.path)))
    }

    fn refused(&self, refusal: Refusal) -> Failure {
        Failure::could_not(format!("{}: {refusal}", shown(&self.path)))
    }

    fn changed(&self) -> Failure {
        Failure::could_not(format!("{} changed while it was read; nothing was written", shown(&self.path)))
    }

    fn has_unreadable(&self, total: u64) -> Failure {
        let (total, slots) = (grouped(total), grouped(self.layout.slots));
        let what =
            format!("{total} of {slots} slots cannot be read with these parameters; nothing was written");
        Failure::could_not(format!("{}: {what}", shown(&self.path)))
    }
}

#[cfg(test)]
mod tests {
    use super::*;
    use crate::room::Room;
    use std::fs;
    use std::time::SystemTime;
    use windlassow::{Dimension, store};

    /// Two runs of slots of 32 bits, all zero but for the last.
    fn archive() -> (Params, Vec<u8>) {
        let params = Params::exact_floats(Dimension::One).with_width(32);
        let mut archive = vec![0; 4 * 3_600];
        store(params, &mut archive, 3_599, &[1.0f32.to_bits(); 4]).unwrap();
        (params, archive)
    }

    /// Something done to a file, which held these bytes.
    type Meddle = fn(&Path, &[u8]);

    /// What becomes of the second pass where this is done to the file after the first.
    fn second_pass(meddle: Meddle) -> (Result<(), Failure>, Vec<u8>) {
        let room = Room::new();
        let (params, archive) = archive();
        let path = room.path("old");
        fs::write(&path, &archive).unwrap();
        let mut said = Vec::new();
        let mut console = Console::new(&mut said, false);
        let source = Source::open(params, &path).unwrap();
        source.check(&mut console).unwrap();
        meddle(&path, &archive);
        let mut new = Vec::new();
        let result = source.transfer(&mut console, |bytes| {
            new.extend_from_slice(bytes);
            Ok(())
        });
        (result, new)
    }

    #[test]
    fn a_file_that_stays_is_handed_over() {
        let (result, new) = second_pass(|_, _| {});
        assert_eq!((result, new.len()), (Ok(()), 65_700));
    }

    /// Shorter, longer, with a slot that cannot be read and the time of the last change put back, or with other readings.
    #[test]
    fn a_file_that_changes_is_noticed() {
        let shorter = |path: &Path, old: &[u8]| fs::write(path, &old[..old.len() - 4]).unwrap();
        let longer = |path: &Path, old: &[u8]| fs::write(path, [old, &[0]].concat()).unwrap();
        let unreadable = |path: &Path, old: &[u8]| {
            let time = fs::metadata(path).unwrap().modified().unwrap();
            fs::write(path, vec![0xff; old.len()]).unwrap();
            File::options().append(true).open(path).unwrap().set_modified(time).unwrap();
        };
        let other = |path: &Path, old: &[u8]| {
            fs::write(path, vec![0; old.len()]).unwrap();
            File::options().append(true).open(path).unwrap().set_modified(SystemTime::UNIX_EPOCH).unwrap();
        };
        let ways: [Meddle; 4] = [shorter, longer, unreadable, other];
        for (way, meddle) in ways.into_iter().enumerate() {
            let failure = second_pass(meddle).0.expect_err(&format!("way {way}"));
            assert!(
                failure.status == 1 && failure.message.contains("old changed while it was read"),
                "{failure:?}"
            );
        }
    }

    /// An error of the one who writes ends the pass.
    #[test]
    fn an_error_in_writing_is_passed_on() {
        let room = Room::new();
        let (params, archive) = archive();
        fs::write(room.path("old"), archive).unwrap();
        let mut said = Vec::new();
        let source = Source::open(params, &room.path("old")).unwrap();
        let full = || Failure::could_not("full".into());
        assert_eq!(source.transfer(&mut Console::new(&mut said, false), |_| Err(full())), Err(full()));
    }
}
