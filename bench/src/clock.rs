// SPDX-License-Identifier: Apache-2.0 OR MIT
//! The processor's time, which tells a step's cost also where other programs have the processor now and then.

#[repr(C)]
#[derive(Default)]
struct Timespec {
    seconds: i64,
    nanoseconds: i64,
}

const CLOCK_THREAD_CPUTIME_ID: i32 = 3;

unsafe extern "C" {
    fn clock_gettime(clock: i32, time: *mut Timespec) -> i32;
}

/// The time that this thread has had, in nanoseconds, the system's for it among it.
fn now() -> f64 {
    let mut time = Timespec::default();
    let status = unsafe { clock_gettime(CLOCK_THREAD_CPUTIME_ID, &raw mut time) };
    assert_eq!(status, 0, "there is no clock for the thread's time");
    1e9 * time.seconds as f64 + time.nanoseconds as f64
}

/// What is done, and the nanoseconds of this thread that it takes.
pub fn timed<T>(work: impl FnOnce() -> T) -> (f64, T) {
    let start = now();
    let done = work();
    (now() - start, done)
}
