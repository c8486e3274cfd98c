//! The processor time of this thread. It never waits, so on a quiet machine that is the time that passes; on a busy one other programs' turns are not in it.
use std::time::Duration;

#[repr(C)]
struct Time {
    seconds: i64,
    nanoseconds: i64,
}

extern "C" {
    fn clock_gettime(clock: i32, time: *mut Time) -> i32;
}

/// CLOCK_THREAD_CPUTIME_ID of Linux.
const OF_THREAD: i32 = 3;

pub fn now() -> Duration {
    let mut time = Time { seconds: 0, nanoseconds: 0 };
    // SAFETY: `Time` is the C library's struct timespec on Linux of 64 bits.
    let done = unsafe { clock_gettime(OF_THREAD, &mut time) };
    assert!(done == 0, "Linux has a clock for each thread");
    Duration::new(time.seconds as u64, time.nanoseconds as u32)
}
