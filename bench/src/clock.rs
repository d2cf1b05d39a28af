//! CPU time of the measuring thread, so that what other programs take does not count.

use std::ffi::c_int;
use std::time::Duration;

/// The number of the thread's clock on Linux.
const THREAD_CPU: c_int = 3;

/// C's `struct timespec` on 64-bit Linux.
#[repr(C)]
struct Timespec {
    seconds: i64,
    nanoseconds: i64,
}

extern "C" {
    fn clock_gettime(clock: c_int, time: *mut Timespec) -> c_int;
}

/// How long this thread has run so far.
pub fn now() -> Duration {
    let mut time = Timespec {
        seconds: 0,
        nanoseconds: 0,
    };
    // SAFETY: the call writes the one structure that it is handed.
    let answer = unsafe { clock_gettime(THREAD_CPU, &mut time) };
    assert_eq!(answer, 0, "the clock of the thread cannot be read");
    Duration::new(time.seconds as u64, time.nanoseconds as u32)
}
