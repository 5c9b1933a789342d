//! The clock that is measured by: the CPU time of this thread, which other processes on the machine do not add to.

const THREAD_CPU_TIME: i32 = 3;

#[repr(C)]
struct Timespec {
    seconds: i64,
    nanoseconds: i64,
}

extern "C" {
    fn clock_gettime(clock: i32, time: &mut Timespec) -> i32;
}

/// The nanoseconds for which this thread has run.
pub fn thread_time() -> u64 {
    let mut time = Timespec {
        seconds: 0,
        nanoseconds: 0,
    };
    let status = unsafe { clock_gettime(THREAD_CPU_TIME, &mut time) };
    assert_eq!(status, 0, "this system has no clock of a thread's CPU time");
    time.seconds as u64 * 1_000_000_000 + time.nanoseconds as u64
}
