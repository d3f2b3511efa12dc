//! Calls of the system that the standard library has not: extended attributes, renaming without replacing, signals. Linux on
//! x86-64.

use std::ffi::{c_char, c_int, c_uint, c_void, CStr, CString};
use std::fs::File;
use std::io;
use std::os::fd::AsRawFd;
use std::os::unix::ffi::OsStrExt;
use std::path::Path;

extern "C" {
    fn flistxattr(fd: c_int, list: *mut c_char, size: usize) -> isize;
    fn fgetxattr(fd: c_int, name: *const c_char, value: *mut c_void, size: usize) -> isize;
    fn fsetxattr(
        fd: c_int,
        name: *const c_char,
        value: *const c_void,
        size: usize,
        flags: c_int,
    ) -> c_int;
    fn fremovexattr(fd: c_int, name: *const c_char) -> c_int;
    fn renameat2(
        old_folder: c_int,
        old: *const c_char,
        new_folder: c_int,
        new: *const c_char,
        flags: c_uint,
    ) -> c_int;
    fn signal(number: c_int, action: usize) -> usize;
    fn raise(number: c_int) -> c_int;
    fn sigemptyset(set: *mut SignalSet) -> c_int;
    fn sigaddset(set: *mut SignalSet, number: c_int) -> c_int;
    fn pthread_sigmask(how: c_int, set: *const SignalSet, old: *mut SignalSet) -> c_int;
    fn sigwait(set: *const SignalSet, number: *mut c_int) -> c_int;
}

/// A set of signals as the C library has it: 1,024 bits.
#[repr(C)]
#[derive(Clone, Copy)]
pub struct SignalSet([u64; 16]);

const CURRENT_FOLDER: c_int = -100;
const NO_REPLACE: c_uint = 1;
const DEFAULT_ACTION: usize = 0;
const IGNORE: usize = 1;
const BLOCK: c_int = 0;
const UNBLOCK: c_int = 1;

/// Errors of Linux: no such attribute; not supported; wrong argument; no such call.
const NO_DATA: i32 = 61;
const NOT_SUPPORTED: i32 = 95;
const INVALID: i32 = 22;
const NO_CALL: i32 = 38;

pub const HANG_UP: c_int = 1;
pub const INTERRUPT: c_int = 2;
pub const TERMINATE: c_int = 15;

fn is_error(error: &io::Error, numbers: &[i32]) -> bool {
    error
        .raw_os_error()
        .is_some_and(|number| numbers.contains(&number))
}

/// Asks first how long an answer is, then for it. One that grows in between is asked for again.
fn answered(ask: impl Fn(*mut u8, usize) -> isize) -> io::Result<Vec<u8>> {
    loop {
        let length = ask(std::ptr::null_mut(), 0);
        let Ok(length) = usize::try_from(length) else {
            return Err(io::Error::last_os_error());
        };
        let mut bytes = vec![0; length];
        if length == 0 {
            return Ok(bytes);
        }
        let filled = ask(bytes.as_mut_ptr(), length);
        match usize::try_from(filled) {
            Ok(filled) => {
                bytes.truncate(filled);
                return Ok(bytes);
            }
            Err(_) => {
                let error = io::Error::last_os_error();
                // 34: the answer is longer than the room
                if !is_error(&error, &[34]) {
                    return Err(error);
                }
            }
        }
    }
}

/// The names of a file's extended attributes, ACLs and security labels among them.
pub fn attribute_names(file: &File) -> io::Result<Vec<CString>> {
    // SAFETY: the pointer and the length are those of one buffer, or null and 0.
    let ask = |list: *mut u8, size| unsafe { flistxattr(file.as_raw_fd(), list.cast(), size) };
    match answered(ask) {
        Ok(bytes) => Ok(bytes
            .split_inclusive(|&byte| byte == 0)
            .filter_map(|name| CStr::from_bytes_with_nul(name).ok())
            .map(CStr::to_owned)
            .collect()),
        Err(error) if is_error(&error, &[NOT_SUPPORTED]) => Ok(Vec::new()),
        Err(error) => Err(error),
    }
}

/// An extended attribute; none where the file has it not.
pub fn attribute(file: &File, name: &CStr) -> io::Result<Option<Vec<u8>>> {
    let ask = |value: *mut u8, size| {
        // SAFETY: the name ends with 0; the pointer and the length are those of one buffer, or null and 0.
        unsafe { fgetxattr(file.as_raw_fd(), name.as_ptr(), value.cast(), size) }
    };
    match answered(ask) {
        Ok(value) => Ok(Some(value)),
        Err(error) if is_error(&error, &[NO_DATA, NOT_SUPPORTED]) => Ok(None),
        Err(error) => Err(error),
    }
}

fn answer_of(answer: c_int) -> io::Result<()> {
    match answer {
        0 => Ok(()),
        _ => Err(io::Error::last_os_error()),
    }
}

pub fn set_attribute(file: &File, name: &CStr, value: &[u8]) -> io::Result<()> {
    let fd = file.as_raw_fd();
    // SAFETY: the name ends with 0; the pointer and the length are those of one slice.
    answer_of(unsafe { fsetxattr(fd, name.as_ptr(), value.as_ptr().cast(), value.len(), 0) })
}

pub fn remove_attribute(file: &File, name: &CStr) -> io::Result<()> {
    // SAFETY: the name ends with 0.
    answer_of(unsafe { fremovexattr(file.as_raw_fd(), name.as_ptr()) })
}

/// Renames a file to a name that is not there yet. A disk that can't do both at once renames alone.
pub fn rename_new(from: &Path, to: &Path) -> io::Result<()> {
    let text = |path: &Path| CString::new(path.as_os_str().as_bytes()).map_err(io::Error::from);
    let (old, new) = (text(from)?, text(to)?);
    // SAFETY: both names end with 0.
    let answer = answer_of(unsafe {
        renameat2(
            CURRENT_FOLDER,
            old.as_ptr(),
            CURRENT_FOLDER,
            new.as_ptr(),
            NO_REPLACE,
        )
    });
    match answer {
        Err(error) if is_error(&error, &[INVALID, NO_CALL]) => std::fs::rename(from, to),
        other => other,
    }
}

/// Those of some signals that are not ignored, held back from now on in this thread and those that it starts.
pub fn hold_back(numbers: &[c_int]) -> SignalSet {
    let mut set = SignalSet([0; 16]);
    // SAFETY: the set is as large as the C library's; the calls change it and the actions of these signals alone.
    unsafe {
        sigemptyset(&raw mut set);
        for &number in numbers {
            if signal(number, DEFAULT_ACTION) == IGNORE {
                signal(number, IGNORE);
            } else {
                sigaddset(&raw mut set, number);
            }
        }
        pthread_sigmask(BLOCK, &raw const set, std::ptr::null_mut());
    }
    set
}

/// Waits for one of the signals that are held back.
pub fn wait_for(set: &SignalSet) -> Option<c_int> {
    let mut number = 0;
    // SAFETY: both are as large as the C library wants them.
    let answer = unsafe { sigwait(set, &raw mut number) };
    (answer == 0).then_some(number)
}

/// Ends the process by a signal that was held back.
pub fn end_by(set: &SignalSet, number: c_int) {
    // SAFETY: the set is as large as the C library's.
    unsafe {
        signal(number, DEFAULT_ACTION);
        pthread_sigmask(UNBLOCK, set, std::ptr::null_mut());
        raise(number);
    }
}
