//! The proved library's run, and processor time.

use std::ffi::{c_int, c_long};
use std::time::Duration;

#[link(name = "funding", kind = "static")]
extern "C" {
    fn funding_run(
        size: u8,
        file: *const u8,
        file_len: usize,
        positions: *mut i64,
        positions_len: usize,
        cash: *mut i64,
        cash_len: usize,
    ) -> u64;
}

extern "C" {
    /// The C library's processor time in microseconds.
    fn clock() -> c_long;
    fn getrusage(who: c_int, usage: *mut Usage) -> c_int;
}

/// What the C library says that processes used. A time is seconds and microseconds.
#[repr(C)]
#[derive(Default)]
struct Usage {
    user: [c_long; 2],
    system: [c_long; 2],
    others: [c_long; 14],
}

/// The child processes that have ended.
const CHILDREN: c_int = -1;

/// Time in which other programs ran doesn't count.
pub fn processor_time() -> Duration {
    // SAFETY: it takes nothing and only answers.
    Duration::from_micros(unsafe { clock() } as u64)
}

/// That of the child processes that have ended.
pub fn processor_time_of_children() -> Duration {
    let mut usage = Usage::default();
    // SAFETY: it only fills what it is lent, which has the layout that the C library gives it.
    let status = unsafe { getrusage(CHILDREN, &mut usage) };
    assert_eq!(status, 0, "the C library knows child processes");
    let time = |[seconds, microseconds]: [c_long; 2]| {
        Duration::from_secs(seconds as u64) + Duration::from_micros(microseconds as u64)
    };
    time(usage.user) + time(usage.system)
}

pub fn run(size: u8, file: &[u8], positions: &mut [i64], cash: &mut [i64]) -> u64 {
    // SAFETY: each pointer is that of a slice with the length beside it, and the slices differ.
    unsafe {
        funding_run(
            size,
            file.as_ptr(),
            file.len(),
            positions.as_mut_ptr(),
            positions.len(),
            cash.as_mut_ptr(),
            cash.len(),
        )
    }
}
