//! Memory that is lent to an engine: each argument stands directly before or behind a page that can't be touched, with guard
//! bytes on its other side.

use std::ptr;

use crate::calls::Argument;
use crate::case::{bytes_of, Case, Outcome, Value};
use crate::system;

const PAGE: usize = 4096;
const GUARD: usize = 64;
const GUARD_BYTE: u8 = 0xB7;

/// Which side of an argument the untouchable page is on.
#[derive(Clone, Copy, Debug, PartialEq, Eq)]
pub enum Side {
    Before,
    Behind,
}

/// Pages between two that can't be touched.
struct Pages {
    start: *mut u8,
    length: usize,
}

impl Pages {
    fn new(length: usize) -> Pages {
        let length = (length + GUARD).next_multiple_of(PAGE);
        let start = system::map_between_guards(length, PAGE);
        Pages { start, length }
    }
}

impl Drop for Pages {
    fn drop(&mut self) {
        system::unmap_between_guards(self.start, self.length, PAGE);
    }
}

/// Where one argument stands.
struct Place {
    start: *mut u8,
    length: usize,
    guard: *mut u8,
}

impl Place {
    fn bytes(&self) -> &[u8] {
        // SAFETY: the pages hold so many bytes from there on.
        unsafe { std::slice::from_raw_parts(self.start, self.length) }
    }

    fn is_guard_whole(&self) -> bool {
        // SAFETY: the pages have room for the guard on that side.
        let guard = unsafe { std::slice::from_raw_parts(self.guard, GUARD) };
        guard.iter().all(|&byte| byte == GUARD_BYTE)
    }
}

/// The memory of an engine, by the argument's number; it is kept from case to case.
#[derive(Default)]
pub struct Memory {
    pages: Vec<Pages>,
}

impl Memory {
    fn lend(&mut self, argument: usize, bytes: &[u8], side: Side) -> Place {
        while self.pages.len() <= argument {
            self.pages.push(Pages::new(0));
        }
        if self.pages[argument].length < bytes.len() + GUARD {
            self.pages[argument] = Pages::new(2 * bytes.len());
        }
        let pages = &self.pages[argument];
        // SAFETY: the pages are longer than the bytes and the guard together.
        unsafe {
            let (start, guard) = match side {
                Side::Before => (pages.start, pages.start.add(bytes.len())),
                Side::Behind => {
                    let start = pages.start.add(pages.length - bytes.len());
                    (start, start.sub(GUARD))
                }
            };
            ptr::copy_nonoverlapping(bytes.as_ptr(), start, bytes.len());
            ptr::write_bytes(guard, GUARD_BYTE, GUARD);
            Place {
                start,
                length: bytes.len(),
                guard,
            }
        }
    }

    /// Makes the call of a case. Err has the name of the argument around which something was written.
    ///
    /// # Safety
    /// The function must be the call of this name with the interface of `fantanolive.h`.
    pub unsafe fn run(
        &mut self,
        function: *const (),
        case: &Case,
        side: Side,
    ) -> Result<Outcome, &'static str> {
        let mut words = Vec::with_capacity(16);
        let mut places = Vec::with_capacity(case.values.len());
        let lent: Vec<Vec<u8>> = case.values.iter().map(bytes_of).collect();
        for (at, (argument, value)) in case.call().arguments.iter().zip(&case.values).enumerate() {
            if let Value::Count(count) = value {
                words.push(*count);
                places.push(None);
                continue;
            }
            let place = self.lend(at, &lent[at], side);
            words.push(place.start as u64);
            if matches!(argument, Argument::Buffer { .. }) {
                words.push((place.length / argument.width()) as u64);
            }
            places.push(Some(place));
        }
        // SAFETY: the caller's.
        let answer = unsafe { system::call(function, &words) };
        let mut left = Vec::with_capacity(places.len());
        for ((argument, place), before) in case.call().arguments.iter().zip(&places).zip(&lent) {
            let Some(place) = place else {
                left.push(None);
                continue;
            };
            if !place.is_guard_whole() {
                return Err(argument.name());
            }
            let bytes = place.bytes();
            left.push((bytes != before.as_slice()).then(|| bytes.to_vec()));
        }
        Ok(Outcome { answer, left })
    }
}
