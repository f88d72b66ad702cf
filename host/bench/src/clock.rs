//! CPU time of this thread: the machine is shared, so the wall clock says little.

#[repr(C)]
struct TimeSpec {
    seconds: i64,
    nanoseconds: i64,
}

unsafe extern "C" {
    fn clock_gettime(clock: i32, time: *mut TimeSpec) -> i32;
}

/// Linux's CLOCK_THREAD_CPUTIME_ID. (/proc's schedstat says the same, but only from one tick of 4 ms to the next.)
const THREAD_CPU_TIME: i32 = 3;

/// Nanoseconds that this thread has run.
pub fn now() -> u64 {
    let mut time = TimeSpec { seconds: 0, nanoseconds: 0 };
    // SAFETY: the call writes one timespec, which on x86-64 is two 64-bit numbers.
    let answer = unsafe { clock_gettime(THREAD_CPU_TIME, &mut time) };
    assert_eq!(answer, 0, "Linux tells a thread's time");
    time.seconds as u64 * 1_000_000_000 + time.nanoseconds as u64
}

/// Nanoseconds that `work` takes.
pub fn time(work: impl FnOnce()) -> u64 {
    let before = now();
    work();
    now() - before
}
