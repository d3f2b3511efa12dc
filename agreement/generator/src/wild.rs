//! Buffers of any length with any bytes, and counts of any size.

use crate::rng::Rng;

/// Up to some hundred bytes, often as many as a key, a row or a record has, or a few of them.
pub fn bytes(rng: &mut Rng) -> Vec<u8> {
    let length = match rng.below(4) {
        0 => 0,
        1 => rng.pick(&[2, 12, 24, 200, 245, 400, 490, 980]),
        2 => rng.below(8),
        _ => rng.below(1000),
    };
    rng.bytes(length)
}

/// A count that is none, small or any.
pub fn count(rng: &mut Rng) -> usize {
    match rng.below(3) {
        0 => 0,
        1 => rng.below(4),
        _ => rng.number() as usize,
    }
}
