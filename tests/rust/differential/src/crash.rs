//! Which case was running, told where the process crashes: buffers stand against pages that can't be touched.

use std::ffi::{c_int, c_void};
use std::sync::atomic::{AtomicPtr, AtomicU64, AtomicUsize, Ordering};

const BUS_ERROR: c_int = 7;
const SEGMENT_FAULT: c_int = 11;
const STANDARD_ERROR: c_int = 2;

extern "C" {
    fn signal(number: c_int, handler: extern "C" fn(c_int)) -> usize;
    fn write(file: c_int, bytes: *const c_void, length: usize) -> isize;
    fn _exit(status: c_int) -> !;
}

static NAME: AtomicPtr<u8> = AtomicPtr::new(std::ptr::null_mut());
static LENGTH: AtomicUsize = AtomicUsize::new(0);
static SEED: AtomicU64 = AtomicU64::new(0);

fn say(text: &[u8]) {
    // SAFETY: a slice with its length.
    unsafe { write(STANDARD_ERROR, text.as_ptr().cast(), text.len()) };
}

/// The digits of a number, without memory of their own.
fn digits(mut number: u64, space: &mut [u8; 20]) -> &[u8] {
    let mut start = space.len();
    loop {
        start -= 1;
        space[start] = b'0' + (number % 10) as u8;
        number /= 10;
        if number == 0 {
            return &space[start..];
        }
    }
}

extern "C" fn crashed(_: c_int) {
    let name = NAME.load(Ordering::Relaxed);
    say(b"crashed in case --");
    if !name.is_null() {
        // SAFETY: the name of a run, which is always there.
        say(unsafe { std::slice::from_raw_parts(name, LENGTH.load(Ordering::Relaxed)) });
    }
    say(b" ");
    say(digits(SEED.load(Ordering::Relaxed), &mut [0; 20]));
    say(b": something outside the buffers was read or written\n");
    // SAFETY: ends the process.
    unsafe { _exit(1) }
}

/// From now on a crash is told.
pub fn watch() {
    // SAFETY: the handler takes the signal's number.
    unsafe {
        signal(SEGMENT_FAULT, crashed);
        signal(BUS_ERROR, crashed);
    }
}

/// The case that is running.
pub fn enter(name: &'static str, seed: u64) {
    NAME.store(name.as_ptr().cast_mut(), Ordering::Relaxed);
    LENGTH.store(name.len(), Ordering::Relaxed);
    SEED.store(seed, Ordering::Relaxed);
}
