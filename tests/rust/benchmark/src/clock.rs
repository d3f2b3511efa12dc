//! The thread's processor time, so that other work on the machine counts for little.

#[repr(C)]
struct Timespec {
    seconds: i64,
    nanoseconds: i64,
}

extern "C" {
    fn clock_gettime(clock: i32, time: *mut Timespec) -> i32;
}

/// CLOCK_THREAD_CPUTIME_ID on Linux.
const THREAD: i32 = 3;

fn now() -> f64 {
    let mut time = Timespec {
        seconds: 0,
        nanoseconds: 0,
    };
    // SAFETY: the structure is the one that the call fills in on 64-bit Linux.
    let answer = unsafe { clock_gettime(THREAD, &mut time) };
    assert_eq!(answer, 0, "no processor time clock");
    time.seconds as f64 + time.nanoseconds as f64 / 1e9
}

/// Seconds that a call takes.
pub fn seconds(call: impl FnOnce()) -> f64 {
    let start = now();
    call();
    now() - start
}
