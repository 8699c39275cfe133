//! The processor time of this thread. Time on the wall would not do for a comparison on a busy
//! machine: the longer of two calls is interrupted more often, so its median grows more.
#![allow(unsafe_code)]

use std::time::Duration;

/// C's `struct timespec` on 64-bit Linux.
#[repr(C)]
struct Timespec {
    seconds: i64,
    nanoseconds: i64,
}

/// Linux's CLOCK_THREAD_CPUTIME_ID.
const THREAD: i32 = 3;

unsafe extern "C" {
    fn clock_gettime(clock: i32, time: *mut Timespec) -> i32;
}

/// The time that the processor has spent on this thread so far.
pub fn thread_time() -> Duration {
    let mut time = Timespec { seconds: 0, nanoseconds: 0 };
    // SAFETY: the pointer is to a timespec of this frame, and C's function writes nothing else.
    let failed = unsafe { clock_gettime(THREAD, &mut time) };
    assert_eq!(failed, 0, "the thread's clock can be read");
    Duration::new(time.seconds as u64, time.nanoseconds as u32)
}
