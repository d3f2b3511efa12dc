//! Sixteen bytes at once: a bit for each byte, the lowest for the first. With the vector
//! instructions that every 64-bit x86 processor has; elsewhere byte by byte.

#[cfg(target_arch = "x86_64")]
mod wide {
    use std::arch::x86_64::{
        __m128i, _mm_cmpeq_epi8, _mm_loadu_si128, _mm_min_epu8, _mm_movemask_epi8, _mm_prefetch,
        _mm_set1_epi8, _mm_sub_epi8, _MM_HINT_T0,
    };

    #[inline(always)]
    fn load(bytes: &[u8; 16]) -> __m128i {
        // SAFETY: sixteen bytes can be read, and the load asks for no alignment.
        unsafe { _mm_loadu_si128(bytes.as_ptr().cast()) }
    }

    #[inline(always)]
    pub fn digits(bytes: &[u8; 16]) -> u32 {
        // SAFETY: instructions that every 64-bit x86 processor has.
        unsafe {
            let low = _mm_sub_epi8(load(bytes), _mm_set1_epi8(0xF0u8 as i8));
            let most = _mm_min_epu8(low, _mm_set1_epi8(9));
            _mm_movemask_epi8(_mm_cmpeq_epi8(most, low)) as u32
        }
    }

    #[inline(always)]
    pub fn equal(bytes: &[u8; 16], other: &[u8; 16]) -> u32 {
        // SAFETY: as above.
        unsafe { _mm_movemask_epi8(_mm_cmpeq_epi8(load(bytes), load(other))) as u32 }
    }

    /// Asks for a line of memory before it is read; has no say in the outcome.
    #[inline(always)]
    pub fn fetch<T>(place: &T) {
        // SAFETY: a prefetch changes nothing.
        unsafe { _mm_prefetch::<_MM_HINT_T0>(std::ptr::from_ref(place).cast()) };
    }
}

#[cfg(not(target_arch = "x86_64"))]
mod wide {
    fn mask(test: impl Fn(usize) -> bool) -> u32 {
        (0..16).fold(0, |mask, at| mask | u32::from(test(at)) << at)
    }

    pub fn digits(bytes: &[u8; 16]) -> u32 {
        mask(|at| bytes[at].wrapping_sub(0xF0) < 10)
    }

    pub fn equal(bytes: &[u8; 16], other: &[u8; 16]) -> u32 {
        mask(|at| bytes[at] == other[at])
    }

    pub fn fetch<T>(_: &T) {}
}

pub use wide::{digits, equal, fetch};

/// The bytes that are one byte.
#[inline(always)]
pub fn all(bytes: &[u8; 16], byte: u8) -> u32 {
    equal(bytes, &[byte; 16])
}

/// Asks for all lines of memory that hold these bytes.
#[inline(always)]
pub fn fetch_all(bytes: &[u8]) {
    for line in bytes.chunks(64) {
        fetch(&line[0]);
    }
    if let Some(last) = bytes.last() {
        fetch(last);
    }
}
