//! The processor time of this thread: other work on the machine does not count as the work that is measured.
use std::ffi::{c_int, c_long};

#[repr(C)]
struct Time {
    seconds: c_long,
    nanoseconds: c_long,
}

unsafe extern "C" {
    fn clock_gettime(clock: c_int, time: *mut Time) -> c_int;
}

/// Linux's number for the clock of the calling thread.
const THREAD: c_int = 3;

/// Seconds since the thread began.
pub fn seconds() -> f64 {
    let mut time = Time { seconds: 0, nanoseconds: 0 };
    assert_eq!(unsafe { clock_gettime(THREAD, &mut time) }, 0, "clock_gettime");
    time.seconds as f64 + time.nanoseconds as f64 * 1e-9
}

/// What the work gives, and the seconds that it took.
pub fn timed<A>(work: impl FnOnce() -> A) -> (A, f64) {
    let start = seconds();
    let result = work();
    (result, seconds() - start)
}
