//! Bytes that are made as they are read, a window at a time, of which few are in memory at once: a master of as many rows as there can be,
//! though no two of them are alike. They can't be written.

use std::ffi::c_void;
use std::ops::Deref;
use std::os::raw::{c_int, c_long};
use std::ptr;
use std::sync::atomic::{AtomicPtr, Ordering};

use super::{
    close, file_of, mmap, munmap, ANONYMOUS, FIXED, NO_RESERVE, PRIVATE, READ_AND_WRITE, SHARED,
};

extern "C" {
    fn sigaction(signal: c_int, action: *const Action, before: *mut Action) -> c_int;
}

/// The structure sigaction of 64-bit Linux with the GNU C library.
#[repr(C)]
struct Action {
    handler: usize,
    mask: [u64; 16],
    flags: c_int,
    restorer: usize,
}

/// The start of the structure siginfo: the address comes fourth.
#[repr(C)]
struct Told {
    numbers: [c_int; 4],
    address: usize,
}

const FAULT: c_int = 11;
const WITH_ADDRESS: c_int = 4;
const NOTHING: c_int = 0;
const READ: c_int = 1;
/// The pages are there at once.
const POPULATE: c_int = 0x8000;

/// A multiple of 200 and of every page size.
const WINDOW: usize = 25 * 65_536;
/// So many windows are in memory.
const WINDOWS: usize = 16;
const NONE: usize = usize::MAX;

/// Makes the bytes from a place on.
pub type Make = fn(usize, &mut [u8]);

struct Windows {
    start: usize,
    mapped: usize,
    make: Make,
    /// The memory of the windows that are present: a file, and where it is written.
    file: c_int,
    written: usize,
    present: [usize; WINDOWS],
    next: usize,
}

/// The bytes that are being read; there is one such mapping at a time.
static PRESENT: AtomicPtr<Windows> = AtomicPtr::new(ptr::null_mut());

/// Bytes to lend to a call that writes none of them.
pub struct Made {
    start: usize,
    length: usize,
    windows: *mut Windows,
}

/// Maps a part of a file, or with -1 nothing that can be read.
fn map(start: usize, length: usize, access: c_int, flags: c_int, file: (c_int, usize)) -> usize {
    let offset = file.1 as c_long;
    // SAFETY: fresh memory, or with `FIXED` a window of our own.
    let start = unsafe { mmap(start as *mut c_void, length, access, flags, file.0, offset) };
    assert!(start as isize != -1, "no {length} bytes to map");
    start as usize
}

/// Memory that can't be read.
const UNREADABLE: c_int = PRIVATE | ANONYMOUS | NO_RESERVE;

fn set_handler(handler: usize, flags: c_int) {
    let action = Action {
        handler,
        mask: [0; 16],
        flags,
        restorer: 0,
    };
    // SAFETY: the structure is the one that the call reads.
    let answer = unsafe { sigaction(FAULT, &action, ptr::null_mut()) };
    assert_eq!(answer, 0, "the signal can be handled");
}

extern "C" fn faulted(_: c_int, told: *const Told, _: *mut c_void) {
    let windows = PRESENT.load(Ordering::Relaxed);
    // SAFETY: the kernel hands the structure over; the windows live while they are present, and the thread that reads them is
    // stopped here.
    let made = unsafe {
        let address = (*told).address;
        !windows.is_null() && (*windows).bring(address)
    };
    if !made {
        // Another fault, or a byte written: as without this.
        set_handler(0, 0);
    }
}

impl Windows {
    /// Brings the window of an address; false where there is none, or it is there already.
    fn bring(&mut self, address: usize) -> bool {
        let Some(offset) = address
            .checked_sub(self.start)
            .filter(|&at| at < self.mapped)
        else {
            return false;
        };
        let window = offset / WINDOW;
        if self.present.contains(&window) {
            return false;
        }
        let slot = self.next * WINDOW;
        let old = std::mem::replace(&mut self.present[self.next], window);
        self.next = (self.next + 1) % WINDOWS;
        if old != NONE {
            let start = self.start + old * WINDOW;
            map(start, WINDOW, NOTHING, UNREADABLE | FIXED, (-1, 0));
        }
        // SAFETY: the memory of one window, which is present nowhere now.
        let bytes =
            unsafe { std::slice::from_raw_parts_mut((self.written + slot) as *mut u8, WINDOW) };
        (self.make)(window * WINDOW, bytes);
        let start = self.start + window * WINDOW;
        map(
            start,
            WINDOW,
            READ,
            SHARED | FIXED | POPULATE,
            (self.file, slot),
        );
        true
    }
}

impl Made {
    pub fn new(length: usize, make: Make) -> Made {
        let mapped = length.next_multiple_of(WINDOW).max(WINDOW);
        let start = map(0, mapped, NOTHING, UNREADABLE, (-1, 0));
        let file = file_of(WINDOWS * WINDOW);
        let windows = Box::into_raw(Box::new(Windows {
            start,
            mapped,
            make,
            file,
            written: map(0, WINDOWS * WINDOW, READ_AND_WRITE, SHARED, (file, 0)),
            present: [NONE; WINDOWS],
            next: 0,
        }));
        let before = PRESENT.swap(windows, Ordering::Relaxed);
        assert!(before.is_null(), "there is one such mapping at a time");
        set_handler(faulted as *const () as usize, WITH_ADDRESS);
        Made {
            start,
            length,
            windows,
        }
    }

    /// The bytes as a call takes them that doesn't write them when it refuses; a byte written ends the process.
    #[allow(clippy::mut_from_ref)]
    pub fn lent(&self) -> &mut [u8] {
        // SAFETY: as below; no byte can be written.
        unsafe { std::slice::from_raw_parts_mut(self.start as *mut u8, self.length) }
    }
}

impl Deref for Made {
    type Target = [u8];

    fn deref(&self) -> &[u8] {
        // SAFETY: every byte is there once it is read.
        unsafe { std::slice::from_raw_parts(self.start as *const u8, self.length) }
    }
}

impl Drop for Made {
    fn drop(&mut self) {
        PRESENT.store(ptr::null_mut(), Ordering::Relaxed);
        set_handler(0, 0);
        // SAFETY: the windows are no longer present, and this alone has them; the whole of what was mapped.
        unsafe {
            let windows = Box::from_raw(self.windows);
            munmap(self.start as *mut c_void, windows.mapped);
            munmap(windows.written as *mut c_void, WINDOWS * WINDOW);
            close(windows.file);
        }
    }
}

#[cfg(test)]
mod tests {
    use super::{Made, WINDOW, WINDOWS};

    #[test]
    fn made_where_they_are_read() {
        let made = Made::new(100 * WINDOW + 7, |at, bytes| {
            bytes.fill((at / WINDOW) as u8);
        });
        assert_eq!(made.len(), 100 * WINDOW + 7);
        for window in (0..=100).chain((0..=100).rev()).chain([50, 3, 50]) {
            assert_eq!(made[window * WINDOW + 6], window as u8);
        }
        // SAFETY: the windows live as long as this, and no fault is being handled.
        let present = unsafe { (*made.windows).present };
        assert_eq!(present.len(), WINDOWS);
        assert!(present.contains(&3) && present.contains(&50));
    }
}
