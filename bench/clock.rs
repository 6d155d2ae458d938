//! The processor's time of this program, by the system's call that the C jobs make. Other programs count less in it than in a clock's.

use std::time::Duration;

/// The number of that clock on Linux.
const CLOCK_PROCESS_CPUTIME_ID: i32 = 2;

#[repr(C)]
struct Timespec {
    seconds: i64,
    nanoseconds: i64,
}

unsafe extern "C" {
    fn clock_gettime(clock: i32, time: *mut Timespec) -> i32;
}

/// How long the program had a processor up to a moment.
pub struct Instant(Duration);

impl Instant {
    pub fn now() -> Instant {
        let mut time = Timespec { seconds: 0, nanoseconds: 0 };
        // SAFETY: the call writes the two numbers of the time, which is laid out as the system's on 64 bits.
        let status = unsafe { clock_gettime(CLOCK_PROCESS_CPUTIME_ID, &mut time) };
        assert!(status == 0, "the system has no such clock");
        Instant(Duration::new(time.seconds as u64, time.nanoseconds as u32))
    }

    pub fn elapsed(&self) -> Duration {
        Instant::now().0 - self.0
    }
}
