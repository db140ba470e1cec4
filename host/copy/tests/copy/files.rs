//! The two files: nothing is ever written over, and the old one is a file that can be read.

use crate::room::{Ended, PROGRAM, Room};
use std::fs::{self, File, Permissions};
use std::os::unix::fs::{PermissionsExt, symlink};
use std::path::Path;
use std::process::Command;

const WORDS: [&str; 6] = ["--kind", "floats", "--dimension", "1", "--width", "8N"];

fn room() -> Room {
    Room::with(&[0; 16])
}

fn copy(room: &Room, old: &str, new: &str) -> Ended {
    room.run(WORDS.into_iter().chain([old, new]))
}

#[test]
fn a_new_file_that_exists() {
    let room = room();
    fs::write(room.path("new"), "other").unwrap();
    copy(&room, "old", "new").with_line(2, "new exists; nothing is written over it");
    assert_eq!(room.content("new"), b"other");
    copy(&room, "old", ".").with_line(2, ". exists");
    copy(&room, "old", "/dev/null").with_line(2, "/dev/null exists");
    assert_eq!(room.names(), ["new", "old"]);
}

/// The old file by its own name, by another path, by a link of either kind.
#[test]
fn a_new_file_that_is_the_old_one() {
    let room = room();
    symlink("old", room.path("soft")).unwrap();
    fs::hard_link(room.path("old"), room.path("hard")).unwrap();
    for new in ["old", "./old", "soft", "hard"] {
        copy(&room, "old", new).with_line(2, &format!("{new} is the old file itself"));
        copy(&room, new, "old").with_line(2, "old is the old file itself");
    }
    assert_eq!(room.content("old"), [0; 16]);
    assert_eq!(room.names(), ["hard", "old", "soft"]);
}

#[test]
fn a_new_file_that_is_a_link() {
    let room = room();
    fs::write(room.path("other"), "other").unwrap();
    symlink("other", room.path("link")).unwrap();
    symlink("nothing", room.path("dangling")).unwrap();
    for new in ["link", "dangling"] {
        copy(&room, "old", new).with_line(2, &format!("{new} exists; nothing is written over it"));
    }
    assert_eq!(room.content("other"), b"other");
    assert_eq!(fs::read_link(room.path("dangling")).unwrap(), Path::new("nothing"));
    assert_eq!(room.names(), ["dangling", "link", "old", "other"]);
}

#[test]
fn a_folder_that_is_missing() {
    let room = room();
    copy(&room, "old", "missing/new").with_line(1, "missing: No such file");
    copy(&room, "old", "old/new").with_line(1, "old/new: Not a directory");
    copy(&room, "old", "new/").with_line(1, "new/: ");
    copy(&room, "old", "/proc/new").with_line(1, "/proc/new: ");
    assert_eq!(room.names(), ["old"]);
}

/// In another folder, and through a link to a folder.
#[test]
fn files_elsewhere() {
    let room = room();
    fs::create_dir(room.path("folder")).unwrap();
    symlink("folder", room.path("link")).unwrap();
    copy(&room, "old", "link/new").with_line(0, ": link/new, 73 bytes");
    let absolute = room.path("folder/second");
    copy(&room, "./old", absolute.to_str().unwrap()).with_line(0, "second, 73 bytes");
    assert_eq!((room.content("folder/new"), room.content("folder/second")), (vec![0; 73], vec![0; 73]));
    assert_eq!(room.names(), ["folder", "link", "old"]);
}

#[test]
fn an_old_file_that_is_none() {
    let room = room();
    fs::create_dir(room.path("folder")).unwrap();
    assert!(Command::new("mkfifo").arg(room.path("pipe")).status().unwrap().success());
    copy(&room, "missing", "new").with_line(1, "missing: No such file");
    for old in ["folder", "pipe", "/dev/null"] {
        copy(&room, old, "new").with_line(1, &format!("{old} is not a regular file"));
    }
    assert_eq!(room.names(), ["folder", "old", "pipe"]);
}

/// Files of /proc say that they are empty and are not; one of them cannot be read.
#[test]
fn an_old_file_that_cannot_be_read() {
    let room = room();
    copy(&room, "/proc/self/mem", "new").with_line(1, "/proc/self/mem: ");
    copy(&room, "/proc/version", "new").with_line(1, "/proc/version changed while it was read");
    fs::set_permissions(room.path("old"), Permissions::from_mode(0o000)).unwrap();
    // The superuser may read it all the same.
    if File::open(room.path("old")).is_err() {
        copy(&room, "old", "new").with_line(1, "old: Permission denied");
    }
    assert_eq!(room.names(), ["old"]);
}

/// Who may not read the old file may not read the new one, and the mask is heeded.
#[test]
fn permissions_are_those_of_the_old_file() {
    for (old, mask, new) in
        [(0o600, "022", 0o600), (0o644, "022", 0o644), (0o666, "027", 0o640), (0o755, "000", 0o644)]
    {
        let room = room();
        fs::set_permissions(room.path("old"), Permissions::from_mode(old)).unwrap();
        let script = format!("umask {mask}; exec \"$0\" \"$@\" old new");
        let ended = room.end(Command::new("sh").args(["-c", &script, PROGRAM]).args(WORDS));
        ended.with_line(0, "copied 4 slots");
        let mode = fs::metadata(room.path("new")).unwrap().permissions().mode();
        assert_eq!(mode & 0o7777, new, "{old:o} with {mask}: {mode:o}");
    }
}
