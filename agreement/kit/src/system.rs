//! The few functions of the C library that Rust's has no form for: memory between guard pages, calls through pointers, shared
//! libraries, and pipes with a time limit.

use std::ffi::{c_char, c_int, c_long, c_short, c_ulong, c_void, CStr, CString};
use std::io;
use std::os::fd::RawFd;
use std::time::{Duration, Instant};

const NO_ACCESS: c_int = 0;
const READ_WRITE: c_int = 3;
const PRIVATE_ANONYMOUS: c_int = 0x22;
const NO_RESERVE: c_int = 0x4000;
const BIND_NOW: c_int = 2;
const GET_FLAGS: c_int = 3;
const SET_FLAGS: c_int = 4;
const NON_BLOCKING: c_int = 0x800;
const POLL_IN: c_short = 1;
const POLL_OUT: c_short = 4;

#[repr(C)]
struct Poll {
    file: c_int,
    wanted: c_short,
    ready: c_short,
}

extern "C" {
    fn mmap(
        start: *mut c_void,
        length: usize,
        access: c_int,
        flags: c_int,
        file: c_int,
        offset: c_long,
    ) -> *mut c_void;
    fn mprotect(start: *mut c_void, length: usize, access: c_int) -> c_int;
    fn munmap(start: *mut c_void, length: usize) -> c_int;
    fn dlopen(path: *const c_char, flags: c_int) -> *mut c_void;
    fn dlsym(library: *mut c_void, name: *const c_char) -> *mut c_void;
    fn dlerror() -> *const c_char;
    fn fcntl(file: c_int, command: c_int, ...) -> c_int;
    fn poll(files: *mut Poll, count: c_ulong, milliseconds: c_int) -> c_int;
    fn read(file: c_int, bytes: *mut c_void, length: usize) -> isize;
    fn write(file: c_int, bytes: *const c_void, length: usize) -> isize;
    fn dup(file: c_int) -> c_int;
    fn dup2(from: c_int, to: c_int) -> c_int;
}

/// So many bytes between two stretches that can't be touched.
pub fn map_between_guards(length: usize, guard: usize) -> *mut u8 {
    let all = length + 2 * guard;
    // SAFETY: a fresh mapping, of which the ends are closed.
    unsafe {
        let flags = PRIVATE_ANONYMOUS | NO_RESERVE;
        let start = mmap(std::ptr::null_mut(), all, NO_ACCESS, flags, -1, 0);
        assert!(start as isize != -1, "no memory for {length} bytes");
        let inside = start.cast::<u8>().add(guard);
        let opened = mprotect(inside.cast(), length, READ_WRITE);
        assert!(opened == 0, "no memory for {length} bytes");
        inside
    }
}

pub fn unmap_between_guards(start: *mut u8, length: usize, guard: usize) {
    // SAFETY: what map_between_guards made.
    unsafe {
        munmap(start.sub(guard).cast(), length + 2 * guard);
    }
}

/// Calls a function of so many 64-bit arguments.
///
/// # Safety
/// The function must be one of the C calling convention that takes these arguments.
pub unsafe fn call(function: *const (), words: &[u64]) -> u64 {
    type W = u64;
    macro_rules! by_number {
        ($($count:literal: $($word:literal)*;)*) => {
            match words.len() {
                $($count => {
                    // SAFETY: the caller's.
                    let function: unsafe extern "C" fn($(by_number!(@ $word)),*) -> u64 =
                        unsafe { std::mem::transmute(function) };
                    unsafe { function($(words[$word]),*) }
                })*
                count => panic!("no call has {count} arguments"),
            }
        };
        (@ $word:literal) => { W };
    }
    by_number! {
        3: 0 1 2;
        5: 0 1 2 3 4;
        6: 0 1 2 3 4 5;
        7: 0 1 2 3 4 5 6;
        8: 0 1 2 3 4 5 6 7;
        9: 0 1 2 3 4 5 6 7 8;
        10: 0 1 2 3 4 5 6 7 8 9;
        13: 0 1 2 3 4 5 6 7 8 9 10 11 12;
        15: 0 1 2 3 4 5 6 7 8 9 10 11 12 13 14;
    }
}

/// A shared library that was opened.
pub struct Library(*mut c_void);

impl Library {
    pub fn open(path: &str) -> Result<Library, String> {
        let name = CString::new(path).map_err(|_| "a path with a zero byte".to_string())?;
        // SAFETY: a C string; the message is copied before the next call.
        unsafe {
            let library = dlopen(name.as_ptr(), BIND_NOW);
            if library.is_null() {
                let message = dlerror();
                return Err(match message.is_null() {
                    true => "it can't be opened".to_string(),
                    false => CStr::from_ptr(message).to_string_lossy().into_owned(),
                });
            }
            Ok(Library(library))
        }
    }

    pub fn function(&self, name: &str) -> Option<*const ()> {
        let name = CString::new(name).ok()?;
        // SAFETY: a library that is open, and a C string.
        let found = unsafe { dlsym(self.0, name.as_ptr()) };
        (!found.is_null()).then_some(found.cast_const().cast())
    }
}

/// Makes reads and writes answer at once.
pub fn set_non_blocking(file: RawFd) {
    // SAFETY: a file that the caller has open.
    unsafe {
        let flags = fcntl(file, GET_FLAGS);
        fcntl(file, SET_FLAGS, flags | NON_BLOCKING);
    }
}

/// Waits until a file can be read or written, at most until the deadline.
fn wait(file: RawFd, wanted: c_short, deadline: Instant) -> io::Result<()> {
    loop {
        let left = deadline.saturating_duration_since(Instant::now());
        let mut one = Poll {
            file,
            wanted,
            ready: 0,
        };
        let milliseconds = left.as_millis().min(60_000) as c_int + 1;
        // SAFETY: one entry.
        let ready = unsafe { poll(&mut one, 1, milliseconds) };
        if ready > 0 {
            return Ok(());
        }
        if ready == 0 && Instant::now() >= deadline {
            return Err(io::ErrorKind::TimedOut.into());
        }
        if ready < 0 && io::Error::last_os_error().kind() != io::ErrorKind::Interrupted {
            return Err(io::Error::last_os_error());
        }
    }
}

/// Whether an error means that nothing can be had right now.
fn is_passing(error: &io::Error) -> bool {
    use io::ErrorKind::{Interrupted, WouldBlock};
    matches!(error.kind(), WouldBlock | Interrupted)
}

/// Reads what there is; 0 at the end.
pub fn read_until(file: RawFd, bytes: &mut [u8], deadline: Instant) -> io::Result<usize> {
    loop {
        // SAFETY: the slice's pointer and length.
        let count = unsafe { read(file, bytes.as_mut_ptr().cast(), bytes.len()) };
        if count >= 0 {
            return Ok(count as usize);
        }
        let error = io::Error::last_os_error();
        if !is_passing(&error) {
            return Err(error);
        }
        wait(file, POLL_IN, deadline)?;
    }
}

pub fn write_until(file: RawFd, bytes: &[u8], deadline: Instant) -> io::Result<()> {
    let mut rest = bytes;
    while !rest.is_empty() {
        // SAFETY: the slice's pointer and length.
        let count = unsafe { write(file, rest.as_ptr().cast(), rest.len()) };
        if count >= 0 {
            rest = &rest[count as usize..];
            continue;
        }
        let error = io::Error::last_os_error();
        if !is_passing(&error) {
            return Err(error);
        }
        wait(file, POLL_OUT, deadline)?;
    }
    Ok(())
}

/// A deadline far enough away to be none.
pub fn no_deadline() -> Instant {
    Instant::now() + Duration::from_secs(86_400 * 365)
}

/// Takes standard output for itself: whatever else writes there writes to standard error.
pub fn take_standard_output() -> RawFd {
    // SAFETY: files 1 and 2 are the process's own.
    unsafe {
        let taken = dup(1);
        dup2(2, 1);
        taken
    }
}
