//! Buffers of zeros. The system gives their pages only when they are written to, and one that it can't give ends the run with a
//! message.

use std::alloc::{alloc_zeroed, Layout};

use crate::failure::{counted, Failure};

/// Numbers whose zero is all bits zero.
pub trait Number: Copy {}

impl Number for u8 {}
impl Number for u32 {}
impl Number for u64 {}

/// So many zeros.
pub fn zeros<T: Number>(count: usize) -> Result<Vec<T>, Failure> {
    let too_large = |bytes: u64| {
        let bytes = counted(bytes, "byte");
        Failure::File(format!("not enough memory: {bytes} at once can't be had"))
    };
    let layout = Layout::array::<T>(count).map_err(|_| too_large(u64::MAX))?;
    if layout.size() == 0 {
        return Ok(Vec::new());
    }
    // SAFETY: the layout has a size.
    let place = unsafe { alloc_zeroed(layout) };
    if place.is_null() {
        return Err(too_large(layout.size() as u64));
    }
    // SAFETY: the place comes from the allocator that lists have, with the layout of so many numbers, and zeros are numbers.
    Ok(unsafe { Vec::from_raw_parts(place.cast(), count, count) })
}

#[cfg(test)]
mod tests {
    use super::*;

    #[test]
    fn buffers_and_what_can_not_be_had() {
        assert_eq!(zeros::<u8>(0).expect("it is nothing"), []);
        assert_eq!(zeros::<u64>(3).expect("it is little"), [0, 0, 0]);
        for much in [usize::MAX, isize::MAX as usize / 8] {
            let failure = zeros::<u64>(much).expect_err("no machine has it");
            assert!(matches!(failure, Failure::File(_)));
        }
    }
}
