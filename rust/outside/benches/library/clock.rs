//! The processor time of this thread, which other work on the machine does not lengthen.

#[repr(C)]
struct Timespec {
    seconds: i64,
    nanoseconds: i64,
}

extern "C" {
    fn clock_gettime(clock: i32, time: *mut Timespec) -> i32;
}

/// Linux's number for the clock of the calling thread.
const THREAD_CPU_TIME: i32 = 3;

/// Seconds that this thread has run.
pub fn now() -> f64 {
    let mut time = Timespec { seconds: 0, nanoseconds: 0 };
    // SAFETY: the pointer is to a timespec as 64-bit Linux lays it out.
    let failed = unsafe { clock_gettime(THREAD_CPU_TIME, &mut time) };
    assert_eq!(failed, 0, "the clock of this thread");
    time.seconds as f64 + time.nanoseconds as f64 * 1e-9
}
