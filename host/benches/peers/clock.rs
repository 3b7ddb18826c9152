//! The processor time of this thread, which other work on the machine disturbs less than the time of day.

use std::time::Duration;

#[repr(C)]
struct Timespec {
    seconds: i64,
    nanoseconds: i64,
}

extern "C" {
    fn clock_gettime(clock: i32, time: *mut Timespec) -> i32;
}

/// Linux's number of the clock of a thread's processor time.
const THREAD_TIME: i32 = 3;

fn now() -> Duration {
    let mut time = Timespec {
        seconds: 0,
        nanoseconds: 0,
    };
    // SAFETY: the pointer is to a local of the type that the C library fills
    let failed = unsafe { clock_gettime(THREAD_TIME, &mut time) };
    assert_eq!(failed, 0, "the clock of the thread's processor time");
    Duration::new(time.seconds as u64, time.nanoseconds as u32)
}

/// How many seconds of processor time the work takes.
pub fn seconds(work: impl FnOnce()) -> f64 {
    let began = now();
    work();
    (now() - began).as_secs_f64()
}
