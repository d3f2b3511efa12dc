//! The blocks of SHA-256 by the processor's own instructions, where it has them.

use std::arch::x86_64::*;

use crate::log::sha256::{BLOCK, ROUNDS};

/// Takes whole blocks into the state; false where the processor has no such instructions.
pub fn compress_all(state: &mut [u32; 8], blocks: &[u8]) -> bool {
    let is_there = is_x86_feature_detected!("sha")
        && is_x86_feature_detected!("ssse3")
        && is_x86_feature_detected!("sse4.1");
    if is_there {
        // SAFETY: the processor has the instructions.
        unsafe { compress(state, blocks) };
    }
    is_there
}

/// Four words of a block, the first byte highest.
#[target_feature(enable = "ssse3")]
fn words(bytes: &[u8; 16]) -> __m128i {
    let order = _mm_set_epi64x(0x0c0d_0e0f_0809_0a0b, 0x0405_0607_0001_0203);
    // SAFETY: sixteen bytes are read, from any place.
    let read = unsafe { _mm_loadu_si128(bytes.as_ptr().cast()) };
    _mm_shuffle_epi8(read, order)
}

/// Sixteen times four rounds over a block.
#[target_feature(enable = "sha,ssse3,sse4.1")]
fn rounds(first: &mut __m128i, second: &mut __m128i, block: &[u8]) {
    let mut schedule = [_mm_setzero_si128(); 4];
    let (parts, _) = block.as_chunks::<16>();
    for (four, part) in schedule.iter_mut().zip(parts) {
        *four = words(part);
    }
    for (at, constants) in ROUNDS.chunks_exact(4).enumerate() {
        if at >= 4 {
            // the words sixteen, twelve, eight and four before
            let [w16, w12, w8, w4] = [0, 1, 2, 3].map(|n| schedule[(at + n) & 3]);
            let sum = _mm_add_epi32(_mm_sha256msg1_epu32(w16, w12), _mm_alignr_epi8(w4, w8, 4));
            schedule[at & 3] = _mm_sha256msg2_epu32(sum, w4);
        }
        // SAFETY: four constants are read, from any place.
        let constants = unsafe { _mm_loadu_si128(constants.as_ptr().cast()) };
        let message = _mm_add_epi32(schedule[at & 3], constants);
        *second = _mm_sha256rnds2_epu32(*second, *first, message);
        let message = _mm_shuffle_epi32(message, 0x0E);
        *first = _mm_sha256rnds2_epu32(*first, *second, message);
    }
}

#[target_feature(enable = "sha,ssse3,sse4.1")]
fn compress(state: &mut [u32; 8], blocks: &[u8]) {
    let place = state.as_mut_ptr().cast::<__m128i>();
    // SAFETY: the state is eight words, two times four.
    let (abcd, efgh) = unsafe { (_mm_loadu_si128(place), _mm_loadu_si128(place.add(1))) };
    let (cdab, hgfe) = (_mm_shuffle_epi32(abcd, 0xB1), _mm_shuffle_epi32(efgh, 0x1B));
    // the instructions want the words A B E F and C D G H
    let mut first = _mm_alignr_epi8(cdab, hgfe, 8);
    let mut second = _mm_blend_epi16(hgfe, cdab, 0xF0);
    for block in blocks.chunks_exact(BLOCK) {
        let before = (first, second);
        rounds(&mut first, &mut second, block);
        first = _mm_add_epi32(first, before.0);
        second = _mm_add_epi32(second, before.1);
    }
    let (feba, dchg) = (
        _mm_shuffle_epi32(first, 0x1B),
        _mm_shuffle_epi32(second, 0xB1),
    );
    // SAFETY: as above.
    unsafe {
        _mm_storeu_si128(place, _mm_blend_epi16(feba, dchg, 0xF0));
        _mm_storeu_si128(place.add(1), _mm_alignr_epi8(dchg, feba, 8));
    }
}
