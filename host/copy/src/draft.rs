//! The new file while it is written: without a name, or where the file system has no such files, called NEW.part.

use crate::link;
use std::ffi::OsString;
use std::fs::{self, File, OpenOptions};
use std::io::{self, ErrorKind, Write};
use std::os::unix::fs::OpenOptionsExt;
use std::path::{Path, PathBuf};

/// A file that is not there yet. It is gone when this is dropped before it was published.
pub struct Draft {
    file: File,
    folder: File,
    part: Option<PathBuf>,
    new: PathBuf,
}

/// Linux's flag for a file without a name, in the folder opened.
#[cfg(all(target_os = "linux", target_arch = "x86_64"))]
const O_TMPFILE: Option<i32> = Some(0o20_200_000);
#[cfg(not(all(target_os = "linux", target_arch = "x86_64")))]
const O_TMPFILE: Option<i32> = None;

/// The folder that a file is in or is to be in.
pub fn folder(new: &Path) -> &Path {
    match new.parent() {
        Some(folder) if folder != Path::new("") => folder,
        _ => Path::new("."),
    }
}

impl Draft {
    /// A draft of the file NEW, with these permissions less those that the user's mask takes away.
    pub fn new(new: &Path, permissions: u32) -> io::Result<Draft> {
        match Draft::unnamed(new, permissions) {
            Ok(draft) => Ok(draft),
            Err(_) => Draft::part(new, permissions),
        }
    }

    fn unnamed(new: &Path, permissions: u32) -> io::Result<Draft> {
        let flags = O_TMPFILE.ok_or(ErrorKind::Unsupported)?;
        let mut options = OpenOptions::new();
        let file = options.write(true).custom_flags(flags).mode(permissions).open(folder(new))?;
        // The name is given through this link, which is missing where /proc is.
        fs::symlink_metadata(link::descriptor(&file))?;
        Ok(Draft { file, folder: File::open(folder(new))?, part: None, new: new.into() })
    }

    fn part(new: &Path, permissions: u32) -> io::Result<Draft> {
        let mut part = OsString::from(new);
        part.push(".part");
        let opened_folder = File::open(folder(new))?;
        let file = match OpenOptions::new().write(true).create_new(true).mode(permissions).open(&part) {
            Err(error) if error.kind() == ErrorKind::AlreadyExists => {
                let message =
                    "there is a file of this name with .part added, as a copy that was killed leaves it";
                return Err(io::Error::new(ErrorKind::AlreadyExists, message));
            }
            opened => opened?,
        };
        Ok(Draft { file, folder: opened_folder, part: Some(part.into()), new: new.into() })
    }

    /// Writes what comes next.
    pub fn write(&mut self, bytes: &[u8]) -> io::Result<()> {
        self.file.write_all(bytes)
    }

    /// Gives the file its name, once all of it is on the disk. Fails if anything has that name.
    pub fn publish(mut self) -> io::Result<()> {
        self.file.sync_all()?;
        match &self.part {
            None => link::name(&self.file, &self.new)?,
            Some(part) => fs::hard_link(part, &self.new).map_err(explained)?,
        }
        let settled = self.remove_part().and_then(|()| sync_folder(&self.folder));
        if settled.is_err() {
            let _ = fs::remove_file(&self.new);
        }
        settled
    }

    fn remove_part(&mut self) -> io::Result<()> {
        self.part.take().map_or(Ok(()), fs::remove_file)
    }
}

impl Drop for Draft {
    fn drop(&mut self) {
        let _ = self.remove_part();
    }
}

/// Some file systems, such as FAT, have neither files without a name nor files with two.
fn explained(error: io::Error) -> io::Error {
    if error.kind() == ErrorKind::AlreadyExists {
        return error;
    }
    let message =
        format!("{error}; a file system without hard links cannot take the new file, so name one elsewhere");
    io::Error::new(error.kind(), message)
}

/// Some file systems cannot do this for a folder, and say so.
fn sync_folder(folder: &File) -> io::Result<()> {
    match folder.sync_all() {
        Err(error) if matches!(error.kind(), ErrorKind::InvalidInput | ErrorKind::Unsupported) => Ok(()),
        result => result,
    }
}

#[cfg(test)]
mod tests {
    use super::*;
    use crate::room::Room;
    use std::os::unix::fs::{PermissionsExt, symlink};

    type Make = fn(&Path, u32) -> io::Result<Draft>;

    /// Both ways, and the one that is chosen.
    const WAYS: [(&str, Make); 3] =
        [("unnamed", Draft::unnamed), ("part", Draft::part), ("chosen", Draft::new)];

    /// A draft of "new" in a folder of its own, made in each way that the file system has.
    fn drafts() -> impl Iterator<Item = (&'static str, Room, Draft)> {
        WAYS.into_iter().filter_map(|(way, make)| {
            let room = Room::new();
            match make(&room.path("new"), 0o600) {
                Err(error) if way == "unnamed" && error.kind() == ErrorKind::Unsupported => None,
                made => Some((way, room, made.unwrap())),
            }
        })
    }

    #[test]
    fn a_draft_gets_its_name_at_the_end() {
        for (way, room, mut draft) in drafts() {
            let new = room.path("new");
            draft.write(b"first ").unwrap();
            draft.write(b"second").unwrap();
            assert!(!new.exists(), "{way}");
            draft.publish().unwrap();
            assert_eq!(fs::read(&new).unwrap(), b"first second", "{way}");
            assert_eq!(fs::metadata(&new).unwrap().permissions().mode() & 0o777, 0o600, "{way}");
            assert_eq!(room.names(), ["new"], "{way}");
        }
    }

    #[test]
    fn a_draft_that_is_dropped_leaves_nothing() {
        for (way, room, mut draft) in drafts() {
            draft.write(b"half").unwrap();
            drop(draft);
            assert!(room.names().is_empty(), "{way}");
        }
    }

    /// A file, a folder or a link, also one to nothing, that came after the draft was begun stays as it is.
    #[test]
    fn nothing_is_written_over() {
        let file = |new: &Path| fs::write(new, "other").unwrap();
        let folder = |new: &Path| fs::create_dir(new).unwrap();
        let link = |new: &Path| symlink("nothing", new).unwrap();
        let comings: [fn(&Path); 3] = [file, folder, link];
        for (coming, come) in comings.into_iter().enumerate() {
            for (way, room, mut draft) in drafts() {
                let new = room.path("new");
                draft.write(b"ours").unwrap();
                come(&new);
                let error = draft.publish().expect_err("something has the name");
                assert_eq!(error.kind(), ErrorKind::AlreadyExists, "{way} {coming}");
                assert_eq!(room.names(), ["new"], "{way} {coming}");
                assert_eq!(fs::read(&new).ok().as_deref(), (coming == 0).then_some(&b"other"[..]), "{way}");
            }
        }
    }

    /// NEW.part that somebody takes away, here for want of a file system that has no links: the message says what to do.
    #[test]
    fn a_part_that_cannot_be_linked() {
        let room = Room::new();
        let draft = Draft::part(&room.path("new"), 0o600).unwrap();
        fs::remove_file(room.path("new.part")).unwrap();
        let error = draft.publish().expect_err("there is nothing to name");
        assert!(error.to_string().contains("without hard links"), "{error}");
        assert!(room.names().is_empty());
    }

    /// NEW.part is made anew or not at all.
    #[test]
    fn a_part_of_somebody_else_stays() {
        let room = Room::new();
        fs::write(room.path("new.part"), "other").unwrap();
        let error = Draft::part(&room.path("new"), 0o600).err().expect("the name is taken");
        assert!(error.to_string().contains(".part"), "{error}");
        assert_eq!(fs::read(room.path("new.part")).unwrap(), b"other");
    }

    /// A folder without unnamed files: /proc has none, and takes no others.
    #[test]
    fn a_folder_that_takes_no_files() {
        assert!(Draft::unnamed(Path::new("/proc/new"), 0o600).is_err());
        assert!(Draft::new(Path::new("/proc/new"), 0o600).is_err());
    }

    #[test]
    fn the_folder_of_a_name() {
        for (name, of) in [("new", "."), ("a/new", "a"), ("/new", "/"), ("./new", "."), ("../new", "..")] {
            assert_eq!(folder(Path::new(name)), Path::new(of));
        }
    }
}
