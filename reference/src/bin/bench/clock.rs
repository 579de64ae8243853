//! The processor time of this thread, which what else runs on the machine does not add to.

use std::time::Duration;

/// C's `struct timespec` on 64-bit Linux.
#[repr(C)]
struct Timespec {
    seconds: i64,
    nanoseconds: i64,
}

extern "C" {
    fn clock_gettime(clock: i32, time: *mut Timespec) -> i32;
}

/// Linux's number for it.
const CLOCK_THREAD_CPUTIME_ID: i32 = 3;

pub fn processor_time() -> Duration {
    let mut time = Timespec { seconds: 0, nanoseconds: 0 };
    // SAFETY: the call writes one timespec, which lives through it.
    let failed = unsafe { clock_gettime(CLOCK_THREAD_CPUTIME_ID, &mut time) };
    assert_eq!(failed, 0, "the system has a clock of this thread's time");
    Duration::new(time.seconds as u64, time.nanoseconds as u32)
}
