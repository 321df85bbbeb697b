//! The time that is measured.

#[repr(C)]
struct TimeSpec {
    seconds: i64,
    nanoseconds: i64,
}

unsafe extern "C" {
    fn clock_gettime(clock: i32, time: *mut TimeSpec) -> i32;
}

/// The processor time of this thread in nanoseconds, which does not count what other programs take.
pub fn now() -> f64 {
    const THREAD_CPU_TIME: i32 = 3;
    let mut t = TimeSpec { seconds: 0, nanoseconds: 0 };
    assert_eq!(unsafe { clock_gettime(THREAD_CPU_TIME, &mut t) }, 0);
    t.seconds as f64 * 1e9 + t.nanoseconds as f64
}
