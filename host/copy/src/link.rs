//! Gives a file without a name its name. All unsafe code is here.
#![allow(unsafe_code)]

use std::ffi::{CString, c_char, c_int};
use std::fs::File;
use std::io;
use std::os::fd::AsRawFd;
use std::os::unix::ffi::OsStrExt;
use std::path::{Path, PathBuf};

unsafe extern "C" {
    fn linkat(
        old_folder: c_int,
        old: *const c_char,
        new_folder: c_int,
        new: *const c_char,
        flags: c_int,
    ) -> c_int;
}

/// Names are taken from the working folder.
const AT_FDCWD: c_int = -100;
/// The file that a symbolic link stands for, not the link.
const AT_SYMLINK_FOLLOW: c_int = 0x400;

/// The link by which an open file can be found.
pub fn descriptor(file: &File) -> PathBuf {
    format!("/proc/self/fd/{}", file.as_raw_fd()).into()
}

/// Gives the file this name, which nothing may have yet.
pub fn name(file: &File, new: &Path) -> io::Result<()> {
    let old = CString::new(descriptor(file).as_os_str().as_bytes())?;
    let new = CString::new(new.as_os_str().as_bytes())?;
    // SAFETY: both pointers are to strings that end with a zero byte and outlive the call, which keeps neither.
    let result = unsafe { linkat(AT_FDCWD, old.as_ptr(), AT_FDCWD, new.as_ptr(), AT_SYMLINK_FOLLOW) };
    if result == 0 { Ok(()) } else { Err(io::Error::last_os_error()) }
}
