// SPDX-License-Identifier: MIT
//! The clock of the bench: the processor time of its own thread, which leaves out
//! the time in which the system ran something else.

use std::time::Duration;

/// C's `struct timespec` of 64-bit Linux.
#[repr(C)]
struct Timespec {
    seconds: i64,
    nanoseconds: i64,
}

/// Linux's number for the processor time of the calling thread.
const THREAD: i32 = 3;

extern "C" {
    fn clock_gettime(clock: i32, time: *mut Timespec) -> i32;
}

/// The processor time that the thread has used so far.
#[allow(unsafe_code)]
pub fn now() -> Duration {
    let mut time = Timespec {
        seconds: 0,
        nanoseconds: 0,
    };
    // SAFETY: the pointer is that of a local of C's layout, which the call fills.
    let status = unsafe { clock_gettime(THREAD, &mut time) };
    assert_eq!(status, 0, "the system has a clock for threads");
    Duration::new(time.seconds as u64, time.nanoseconds as u32)
}
