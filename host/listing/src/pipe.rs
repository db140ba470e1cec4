//! A pipe that is written piece by piece, each piece after the one before it has been read.
#![allow(unsafe_code)]

use std::ffi::{c_int, c_ulong};
use std::io::{self, Write};
use std::os::fd::AsRawFd;
use std::process::ChildStdin;
use std::thread;
use std::time::{Duration, Instant};

/// Linux's request for the bytes in a pipe that nobody has read.
const FIONREAD: c_ulong = 0x541B;

/// How long a reader may leave a piece where it is, before the next is written all the same.
const PATIENCE: Duration = Duration::from_millis(500);

unsafe extern "C" {
    fn ioctl(descriptor: c_int, request: c_ulong, ...) -> c_int;
}

/// Writes the pieces and closes the pipe. Each is written when the pipe is empty, so that one read of the child
/// can give it no more than one piece. Ends early if the child reads no more.
///
/// # Errors
/// The pipe cannot be written or asked.
pub fn feed<'a>(mut pipe: ChildStdin, pieces: impl Iterator<Item = &'a [u8]>) -> io::Result<()> {
    for piece in pieces {
        match pipe.write_all(piece) {
            Err(error) if error.kind() == io::ErrorKind::BrokenPipe => return Ok(()),
            result => result?,
        }
        wait_until_read(&pipe)?;
    }
    Ok(())
}

fn wait_until_read(pipe: &ChildStdin) -> io::Result<()> {
    let began = Instant::now();
    while unread(pipe)? > 0 && began.elapsed() < PATIENCE {
        thread::yield_now();
    }
    Ok(())
}

fn unread(pipe: &ChildStdin) -> io::Result<c_int> {
    let mut bytes: c_int = 0;
    // SAFETY: the descriptor is open as long as `pipe` is, and FIONREAD stores one int where it is told to.
    let result = unsafe { ioctl(pipe.as_raw_fd(), FIONREAD, &raw mut bytes) };
    if result == 0 { Ok(bytes) } else { Err(io::Error::last_os_error()) }
}
