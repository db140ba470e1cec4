//! Buffers of 2^34 bytes, and the calls that take too long with them.
//!
//! The buffers are mapped and never written, so they take no memory: where a call reads them, the kernel shows its page of zeros.

use std::ffi::c_void;
use std::fmt::Debug;
use std::ops::{Deref, DerefMut};
use std::time::{Duration, Instant};
use std::{fs, ptr, slice};
use windlassow::Refusal;

/// What a call may take. It is far more than a call takes, since the machine may be busy, and far less than a walk.
const LIMIT: Duration = Duration::from_millis(50);

/// The bytes of a huge buffer, and some more: its length cut to 32 bits would be a good one.
pub const HUGE: usize = 1 << 34;

unsafe extern "C" {
    fn mmap(at: *mut c_void, len: usize, protection: i32, flags: i32, file: i32, offset: i64) -> *mut c_void;
    fn munmap(at: *mut c_void, len: usize) -> i32;
}

/// Elements that are all zero, on pages that are there once they are written.
pub struct Mapped<T> {
    start: *mut T,
    len: usize,
}

impl<T: Copy> Mapped<T> {
    /// Integers only: zero bytes have to be a value.
    pub fn new(len: usize) -> Mapped<T> {
        // PROT_READ | PROT_WRITE; MAP_PRIVATE | MAP_ANONYMOUS | MAP_NORESERVE
        let (protection, flags) = (1 | 2, 0x02 | 0x20 | 0x4000);
        // SAFETY: a new mapping at a place that the kernel picks.
        let start = unsafe { mmap(ptr::null_mut(), len * size_of::<T>(), protection, flags, -1, 0) };
        assert!(start as isize != -1, "no mapping of {len} elements: {}", std::io::Error::last_os_error());
        Mapped { start: start.cast(), len }
    }
}

impl<T> Drop for Mapped<T> {
    fn drop(&mut self) {
        // SAFETY: the mapping that `new` made; nothing borrows from it any more.
        unsafe { munmap(self.start.cast(), self.len * size_of::<T>()) };
    }
}

impl<T> Deref for Mapped<T> {
    type Target = [T];

    fn deref(&self) -> &[T] {
        // SAFETY: mapped and zero, and aligned to a page.
        unsafe { slice::from_raw_parts(self.start, self.len) }
    }
}

impl<T> DerefMut for Mapped<T> {
    fn deref_mut(&mut self) -> &mut [T] {
        // SAFETY: as above, and borrowed once.
        unsafe { slice::from_raw_parts_mut(self.start, self.len) }
    }
}

/// The calls that took too long.
#[derive(Default)]
pub struct Slow(Vec<String>);

impl Slow {
    /// A call that has to be refused with this number. If it is late it is tried again, for the machine may be busy; a walk is not.
    pub fn refused<T: Debug>(
        &mut self,
        number: u32,
        what: &str,
        mut call: impl FnMut() -> Result<T, Refusal>,
    ) {
        self.timed(what, || {
            let refusal = call().expect_err(what);
            assert_eq!(refusal.number(), number, "{what}");
        });
    }

    pub fn timed(&mut self, what: &str, mut call: impl FnMut()) {
        let mut least = Duration::MAX;
        for _ in 0..3 {
            let began = Instant::now();
            call();
            least = least.min(began.elapsed());
            if least < LIMIT || least > 10 * LIMIT {
                break;
            }
        }
        if least >= LIMIT {
            self.0.push(format!("{what}: {least:?}"));
        }
    }

    /// Fails if a call was slow, or if pages were written: this process has little memory of its own.
    pub fn end(self) {
        assert!(self.0.is_empty(), "calls that take longer than {LIMIT:?}:\n{}", self.0.join("\n"));
        let status = fs::read_to_string("/proc/self/status").unwrap();
        let resident = status.lines().find_map(|line| line.strip_prefix("VmRSS:")).unwrap();
        let kilobytes: usize = resident.trim().trim_end_matches(" kB").parse().unwrap();
        assert!(kilobytes < 200_000, "the process has {kilobytes} kB of memory");
    }
}
