//! The processor time of a thread.

unsafe extern "C" {
    /// The C library's.
    safe fn clock_gettime(clock: i32, time: &mut Time) -> i32;
}

/// `struct timespec` of Linux on 64 bits.
#[repr(C)]
#[derive(Default)]
struct Time {
    seconds: i64,
    nanoseconds: i64,
}

/// The processor time of this thread so far, in nanoseconds.
pub fn now() -> f64 {
    const CLOCK_THREAD_CPUTIME_ID: i32 = 3;
    let mut time = Time::default();
    assert_eq!(0, clock_gettime(CLOCK_THREAD_CPUTIME_ID, &mut time));
    time.seconds as f64 * 1e9 + time.nanoseconds as f64
}
