//! Gigabytes to lend that take little memory: zeros whose pages are there once they are written, and
//! records over and over, all on the same pages; and bytes made as they are read. Linux alone.

mod made;

pub use made::{Made, Make};

use std::ffi::c_void;
use std::ops::{Deref, DerefMut};
use std::os::raw::{c_char, c_int, c_long, c_uint};
use std::ptr;
use std::sync::atomic::{AtomicUsize, Ordering};

extern "C" {
    fn mmap(
        start: *mut c_void,
        length: usize,
        protection: c_int,
        flags: c_int,
        file: c_int,
        offset: c_long,
    ) -> *mut c_void;
    fn munmap(start: *mut c_void, length: usize) -> c_int;
    fn madvise(start: *mut c_void, length: usize, advice: c_int) -> c_int;
    fn memfd_create(name: *const c_char, flags: c_uint) -> c_int;
    fn ftruncate(file: c_int, length: c_long) -> c_int;
    fn close(file: c_int) -> c_int;
}

const READ_AND_WRITE: c_int = 0x1 | 0x2;
const SHARED: c_int = 0x01;
const PRIVATE: c_int = 0x02;
const FIXED: c_int = 0x10;
const ANONYMOUS: c_int = 0x20;
const NO_RESERVE: c_int = 0x4000;
const HUGE_PAGES: c_int = 14;

/// A multiple of every page size that Linux has on these processors.
const PAGE: usize = 65_536;

/// The bytes of the blocks that are shared now.
static SHARED_BYTES: AtomicUsize = AtomicUsize::new(0);

/// How many bytes the shared blocks of all mappings take, each block counted once.
pub fn shared_bytes() -> usize {
    SHARED_BYTES.load(Ordering::Relaxed)
}

/// Every byte is the same as this.
pub fn all(bytes: &[u8], byte: u8) -> bool {
    let same = [byte; 4096];
    bytes
        .chunks(4096)
        .all(|block| block == &same[..block.len()])
}

/// Bytes to lend.
pub struct Mapping {
    start: *mut u8,
    /// What is lent, and what is mapped.
    length: usize,
    mapped: usize,
    /// The length of the block that is shared.
    shared: usize,
}

impl Mapping {
    /// Zeros. A page takes memory once it is written.
    pub fn zeros(length: usize) -> Mapping {
        let mapping = Mapping::small_pages(length);
        // Reading is faster with huge pages; it doesn't matter where they aren't granted.
        // SAFETY: the mapping just made.
        unsafe { madvise(mapping.start.cast(), mapping.mapped, HUGE_PAGES) };
        mapping
    }

    /// Zeros on pages of the usual size.
    pub fn small_pages(length: usize) -> Mapping {
        let mapped = length.next_multiple_of(PAGE).max(PAGE);
        let flags = PRIVATE | ANONYMOUS | NO_RESERVE;
        // SAFETY: a fresh mapping that nothing else uses.
        let start = unsafe { mmap(ptr::null_mut(), mapped, READ_AND_WRITE, flags, -1, 0) };
        assert!(start as isize != -1, "no {length} bytes to map");
        Mapping {
            start: start.cast(),
            length,
            mapped,
            shared: 0,
        }
    }

    /// Records over and over, `count` times, and zeros behind them. All whole blocks of them are on the
    /// same pages: what is written to one shows in the others.
    pub fn repeated(records: &[u8], count: usize, behind: usize) -> Mapping {
        let (length, block) = (records.len() * count, records.len() * PAGE);
        let mut mapping = Mapping::zeros(length + behind);
        let blocks = length / block;
        mapping.share(block, blocks);
        if blocks > 0 {
            fill(&mut mapping[..block], records);
        }
        fill(&mut mapping[blocks * block..length], records);
        mapping
    }

    /// Records over and over, `count` times, and one behind them.
    pub fn closed(records: &[u8], count: usize, last: &[u8]) -> Mapping {
        let mut mapping = Mapping::repeated(records, count, last.len());
        mapping[records.len() * count..].copy_from_slice(last);
        mapping
    }

    /// The bytes as numbers of 64 bits; some at the end may be left over.
    pub fn numbers(&mut self) -> &mut [u64] {
        // SAFETY: a page's start is aligned, and all bytes are numbers.
        unsafe { self.align_to_mut::<u64>().1 }
    }

    /// The bytes as numbers of 32 bits; some at the end may be left over.
    pub fn short_numbers(&mut self) -> &mut [u32] {
        // SAFETY: as above.
        unsafe { self.align_to_mut::<u32>().1 }
    }

    /// Puts the pages of one block in the place of so many blocks.
    fn share(&mut self, block: usize, blocks: usize) {
        if blocks == 0 {
            return;
        }
        let file = file_of(block);
        // SAFETY: the places are inside this mapping, which alone they replace, and the file is as long
        // as what is mapped of it.
        unsafe {
            for at in 0..blocks {
                let place = self.start.add(at * block).cast();
                let start = mmap(place, block, READ_AND_WRITE, SHARED | FIXED, file, 0);
                assert!(start == place, "block {at} isn't mapped");
            }
            close(file);
        }
        self.shared = block;
        SHARED_BYTES.fetch_add(block, Ordering::Relaxed);
    }
}

/// A file of zeros in memory.
fn file_of(length: usize) -> c_int {
    // SAFETY: the name ends with a zero.
    unsafe {
        let file = memfd_create(c"bytes".as_ptr(), 0);
        assert!(
            file >= 0 && ftruncate(file, length as c_long) == 0,
            "no file of {length} bytes"
        );
        file
    }
}

fn fill(bytes: &mut [u8], records: &[u8]) {
    for place in bytes.chunks_exact_mut(records.len()) {
        place.copy_from_slice(records);
    }
}

impl Deref for Mapping {
    type Target = [u8];

    fn deref(&self) -> &[u8] {
        // SAFETY: the mapping lives as long as this, and every byte of it is readable.
        unsafe { std::slice::from_raw_parts(self.start, self.length) }
    }
}

impl DerefMut for Mapping {
    fn deref_mut(&mut self) -> &mut [u8] {
        // SAFETY: as above, and nobody else borrows it.
        unsafe { std::slice::from_raw_parts_mut(self.start, self.length) }
    }
}

impl Drop for Mapping {
    fn drop(&mut self) {
        // SAFETY: the whole of what was mapped, shared blocks with it.
        unsafe { munmap(self.start.cast(), self.mapped) };
        SHARED_BYTES.fetch_sub(self.shared, Ordering::Relaxed);
    }
}

#[cfg(test)]
mod tests {
    use super::{all, Mapping, PAGE};

    #[test]
    fn zeros_of_any_length() {
        for length in [0, 1, PAGE, PAGE + 1, 1 << 40] {
            let mut mapping = Mapping::zeros(length);
            assert_eq!(mapping.len(), length);
            assert!(mapping.first().is_none_or(|&byte| byte == 0));
            if let Some(last) = mapping.last_mut() {
                *last = 7;
            }
            assert!(mapping.last().is_none_or(|&byte| byte == 7));
        }
    }

    #[test]
    fn records_and_one_behind() {
        for count in [0, 1, PAGE - 1, PAGE, PAGE + 1, 3 * PAGE + 5] {
            let mapping = Mapping::closed(b"abc", count, b"the end");
            assert_eq!(mapping.len(), 3 * count + 7);
            let (records, last) = mapping.split_at(3 * count);
            assert!(records.chunks(3).all(|record| record == b"abc"));
            assert_eq!(last, b"the end");
        }
    }

    #[test]
    fn all_of_one_byte() {
        for length in [0, 1, 4096, 9000] {
            let mut bytes = vec![7; length];
            assert!(all(&bytes, 7));
            assert_eq!(all(&bytes, 8), length == 0);
            if let Some(last) = bytes.last_mut() {
                *last = 8;
                assert!(!all(&bytes, 7));
            }
        }
    }

    #[test]
    fn written_in_one_place() {
        let mut mapping = Mapping::repeated(b"ab", 4 * PAGE, 0);
        mapping[1] = b'c';
        assert_eq!(mapping[6 * PAGE + 1], b'c');
    }
}
