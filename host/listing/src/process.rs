//! A running program's memory and its end.

use std::process::{Child, ExitStatus};
use std::time::{Duration, Instant};
use std::{fs, io, thread};

/// The most memory that a running process has held at a time, in KiB: its peak resident set, as Linux counts it.
/// Nothing if the process has ended.
pub fn peak_kib(process: u32) -> Option<u64> {
    let status = fs::read_to_string(format!("/proc/{process}/status")).ok()?;
    let line = status.lines().find_map(|line| line.strip_prefix("VmHWM:"))?;
    line.trim().strip_suffix("kB")?.trim().parse().ok()
}

/// Waits for the end of a child. One that has not ended in that time is killed.
///
/// # Errors
/// The child has not ended in that time, or cannot be waited for.
pub fn wait_for(child: &mut Child, time: Duration) -> io::Result<ExitStatus> {
    let began = Instant::now();
    while began.elapsed() < time {
        if let Some(status) = child.try_wait()? {
            return Ok(status);
        }
        thread::sleep(Duration::from_millis(1));
    }
    child.kill()?;
    child.wait()?;
    Err(io::Error::new(io::ErrorKind::TimedOut, format!("the program had not ended after {time:?}")))
}
