//! A folder with files, and the program run in it.

use std::fs;
use std::path::{Path, PathBuf};
use std::process::{Command, Output};
use std::sync::atomic::{AtomicUsize, Ordering};

/// The program.
pub const PROGRAM: &str = env!("CARGO_BIN_EXE_copy-archive");

/// An empty folder that is removed at the end.
pub struct Room(PathBuf);

static ROOMS: AtomicUsize = AtomicUsize::new(0);

/// How a run of the program ended, and what it said on standard error.
#[derive(Debug)]
pub struct Ended {
    pub status: Option<i32>,
    pub said: String,
}

impl Room {
    pub fn new() -> Room {
        let name = format!("copy-{}-{}", std::process::id(), ROOMS.fetch_add(1, Ordering::Relaxed));
        let folder = Path::new(env!("CARGO_TARGET_TMPDIR")).join(name);
        fs::create_dir(&folder).expect("a folder can be made in the target folder");
        Room(folder)
    }

    /// With the file "old".
    pub fn with(old: &[u8]) -> Room {
        let room = Room::new();
        fs::write(room.path("old"), old).unwrap();
        room
    }

    pub fn path(&self, name: &str) -> PathBuf {
        self.0.join(name)
    }

    pub fn content(&self, name: &str) -> Vec<u8> {
        fs::read(self.path(name)).unwrap()
    }

    /// What is in it.
    pub fn names(&self) -> Vec<String> {
        let entries = fs::read_dir(&self.0).unwrap();
        let mut names: Vec<_> =
            entries.map(|entry| entry.unwrap().file_name().into_string().unwrap()).collect();
        names.sort();
        names
    }

    /// Runs the program on these words.
    pub fn run<'a>(&self, words: impl IntoIterator<Item = &'a str>) -> Ended {
        self.end(Command::new(PROGRAM).args(words))
    }

    /// Runs the program on the files old and new; old does not change.
    pub fn copy(&self, kind: &str, dimension: &str, width: &str) -> Ended {
        let before = self.content("old");
        let ended = self.run(["--kind", kind, "--dimension", dimension, "--width", width, "old", "new"]);
        assert!(self.content("old") == before, "the old file has changed");
        ended
    }

    /// Runs a command in this folder. Nothing comes on standard output.
    pub fn end(&self, command: &mut Command) -> Ended {
        let Output { status, stdout, stderr } = command.current_dir(&self.0).output().expect("it can be run");
        assert!(stdout.is_empty(), "standard output: {}", stdout.escape_ascii());
        Ended { status: status.code(), said: String::from_utf8(stderr).unwrap() }
    }
}

impl Drop for Room {
    fn drop(&mut self) {
        let _ = fs::remove_dir_all(&self.0);
    }
}

impl Ended {
    /// Ended with this status, and the last line said is this.
    pub fn with(&self, status: i32, last: &str) {
        assert_eq!(self.status, Some(status), "{self:?}");
        assert_eq!(self.said.lines().last(), Some(&*format!("windlassow copy: {last}")), "{self:?}");
    }

    /// The same, with one line in all, of which this is a part.
    pub fn with_line(&self, status: i32, part: &str) {
        assert_eq!((self.status, self.said.lines().count()), (Some(status), 1), "{self:?}");
        assert!(self.said.starts_with("windlassow copy: ") && self.said.contains(part), "{part}: {self:?}");
    }
}
