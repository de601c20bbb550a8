//! The time that this thread has run on a processor. What others run meanwhile does not count.

use std::time::Duration;

/// `struct timespec` of 64-bit Linux.
#[repr(C)]
struct Timespec {
    seconds: i64,
    nanoseconds: i64,
}

/// `CLOCK_THREAD_CPUTIME_ID` of Linux.
const THREAD: i32 = 3;

extern "C" {
    fn clock_gettime(clock: i32, time: *mut Timespec) -> i32;
}

/// The thread's time so far.
pub fn now() -> Duration {
    let mut time = Timespec {
        seconds: 0,
        nanoseconds: 0,
    };
    // SAFETY: the pointer is to a timespec of this target's layout, which lives during the call.
    let failed = unsafe { clock_gettime(THREAD, &mut time) };
    assert_eq!(failed, 0, "the system has no clock for a thread's time");
    Duration::new(time.seconds as u64, time.nanoseconds as u32)
}

#[cfg(test)]
mod tests {
    use super::*;
    use std::hint::black_box;
    use std::thread::sleep;

    #[test]
    fn work_counts_and_sleep_does_not() {
        let start = now();
        sleep(Duration::from_millis(50));
        let slept = now() - start;
        assert!(slept < Duration::from_millis(25), "{slept:?}");
        let mut sum = 0u64;
        while now() - start < slept + Duration::from_millis(5) {
            sum = black_box(sum + 1);
        }
        assert!(sum > 0);
    }
}
