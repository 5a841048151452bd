//! The time that this thread has had a processor: other programs on the machine do not count.

#[repr(C)]
struct Timespec {
    seconds: i64,
    nanoseconds: i64,
}

unsafe extern "C" {
    fn clock_gettime(clock: i32, time: *mut Timespec) -> i32;
}

/// Linux's number of this clock.
const CLOCK_THREAD_CPUTIME_ID: i32 = 3;

pub fn nanoseconds() -> f64 {
    let mut time = Timespec { seconds: 0, nanoseconds: 0 };
    // SAFETY: on x86-64 Linux a timespec is two 64-bit numbers, and this one may be written.
    let failed = unsafe { clock_gettime(CLOCK_THREAD_CPUTIME_ID, &mut time) };
    assert_eq!(failed, 0, "no clock for a thread's time");
    time.seconds as f64 * 1e9 + time.nanoseconds as f64
}
