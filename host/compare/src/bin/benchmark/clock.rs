//! The time for which this thread has had a processor. On a machine that does other work too, it tells more of a call
//! than the time of day.

/// A time as the C library of 64-bit Linux has it.
#[repr(C)]
struct Timespec {
    seconds: i64,
    nanoseconds: i64,
}

/// The clock of the thread's own time, as Linux numbers it.
const CLOCK_THREAD_CPUTIME_ID: i32 = 3;

unsafe extern "C" {
    fn clock_gettime(clock: i32, time: *mut Timespec) -> i32;
}

/// The thread's own time in seconds.
#[must_use]
pub fn seconds() -> f64 {
    let mut time = Timespec {
        seconds: 0,
        nanoseconds: 0,
    };
    // SAFETY: the function writes one time to where the pointer leads, and keeps no pointer.
    let status = unsafe { clock_gettime(CLOCK_THREAD_CPUTIME_ID, &raw mut time) };
    assert_eq!(status, 0, "there is no clock of the thread's own time");
    time.seconds as f64 + time.nanoseconds as f64 * 1e-9
}
