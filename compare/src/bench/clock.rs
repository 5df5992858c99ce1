//! The processor time of this thread. The time that other programs take on the machine is not counted.
use std::time::Duration;

/// Linux's `struct timespec` on 64-bit machines.
#[repr(C)]
struct Timespec {
    seconds: i64,
    nanoseconds: i64,
}

const CLOCK_THREAD_CPUTIME_ID: i32 = 3;

extern "C" {
    fn clock_gettime(clock: i32, time: *mut Timespec) -> i32;
}

pub fn processor_time() -> Duration {
    let mut time = Timespec { seconds: 0, nanoseconds: 0 };
    // SAFETY: the pointer is to a whole timespec, which the call fills and does not keep.
    let status = unsafe { clock_gettime(CLOCK_THREAD_CPUTIME_ID, &mut time) };
    assert_eq!(status, 0, "the system has no clock of a thread's processor time");
    Duration::new(time.seconds as u64, time.nanoseconds as u32)
}
