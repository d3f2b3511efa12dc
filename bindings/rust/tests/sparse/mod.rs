//! Buffers of zeros, larger than the memory that they take: a page takes memory once it is written.

use std::ffi::c_void;
use std::ops::{Deref, DerefMut};
use std::slice;

extern "C" {
    fn mmap(
        address: *mut c_void,
        length: usize,
        protection: i32,
        flags: i32,
        file: i32,
        offset: i64,
    ) -> *mut c_void;
    fn munmap(address: *mut c_void, length: usize) -> i32;
}

const READ_AND_WRITE: i32 = 1 | 2;
/// MAP_PRIVATE, MAP_ANONYMOUS and MAP_NORESERVE of Linux.
const FLAGS: i32 = 0x02 | 0x20 | 0x4000;

pub struct Sparse {
    start: *mut u8,
    length: usize,
}

impl Sparse {
    pub fn new(length: usize) -> Sparse {
        // SAFETY: a new mapping at an address that the system chooses.
        let start = unsafe { mmap(std::ptr::null_mut(), length, READ_AND_WRITE, FLAGS, -1, 0) };
        assert!(start as isize != -1, "{length} bytes can't be mapped");
        Sparse {
            start: start.cast(),
            length,
        }
    }
}

impl Deref for Sparse {
    type Target = [u8];

    fn deref(&self) -> &[u8] {
        // SAFETY: the mapping has this length, is zeroed, and lives as long as `self`.
        unsafe { slice::from_raw_parts(self.start, self.length) }
    }
}

impl DerefMut for Sparse {
    fn deref_mut(&mut self) -> &mut [u8] {
        // SAFETY: as above; `self` is borrowed exclusively.
        unsafe { slice::from_raw_parts_mut(self.start, self.length) }
    }
}

impl Drop for Sparse {
    fn drop(&mut self) {
        // SAFETY: the mapping is this value's own.
        unsafe { munmap(self.start.cast(), self.length) };
    }
}
