//! Cases for converting: files of accepted characters, most with room for them, the others damaged
//! in the ways that refusals 16 and 17 name; and wild bytes.

use crate::rng::Rng;
use crate::text::EDGES;

/// The characters that have a counterpart, in ASCII.
pub const ASCII: [u8; 46] = *b"ABCDEFGHIJKLMNOPQRSTUVWXYZ0123456789 -,.()/&'#";

/// The same in EBCDIC, in the same order.
pub const EBCDIC: [u8; 46] = [
    0xC1, 0xC2, 0xC3, 0xC4, 0xC5, 0xC6, 0xC7, 0xC8, 0xC9, 0xD1, 0xD2, 0xD3, 0xD4, 0xD5, 0xD6, 0xD7,
    0xD8, 0xD9, 0xE2, 0xE3, 0xE4, 0xE5, 0xE6, 0xE7, 0xE8, 0xE9, 0xF0, 0xF1, 0xF2, 0xF3, 0xF4, 0xF5,
    0xF6, 0xF7, 0xF8, 0xF9, 0x40, 0x60, 0x6B, 0x4B, 0x4D, 0x5D, 0x61, 0x50, 0x7D, 0x7B,
];

#[derive(Clone, Copy, Debug, PartialEq, Eq)]
pub enum Direction {
    ToEbcdic,
    ToAscii,
}

#[derive(Clone, Debug, PartialEq, Eq)]
pub struct ConvertCase {
    pub direction: Direction,
    pub input: Vec<u8>,
    pub out: Vec<u8>,
    pub place: u64,
}

/// Accepted characters of the side that a direction starts from.
pub fn accepted(rng: &mut Rng, direction: Direction, length: usize) -> Vec<u8> {
    let from = match direction {
        Direction::ToEbcdic => &ASCII,
        Direction::ToAscii => &EBCDIC,
    };
    (0..length).map(|_| rng.pick(from)).collect()
}

fn length(rng: &mut Rng) -> usize {
    match rng.below(20) {
        0 | 1 => 0,
        2..=7 => rng.between(1, 9),
        8..=14 => rng.between(10, 300),
        15..=17 => 245 * rng.between(1, 6),
        _ => rng.between(300, 5000),
    }
}

/// A byte that may have no counterpart: of the other side, at an edge, or any.
fn odd(rng: &mut Rng) -> u8 {
    match rng.below(4) {
        0 => rng.pick(&ASCII),
        1 => rng.pick(&EBCDIC),
        2 => rng.pick(&EDGES),
        _ => rng.below(256) as u8,
    }
}

/// Puts odd bytes first, last, somewhere or at two places.
fn damage(rng: &mut Rng, input: &mut [u8]) {
    if input.is_empty() {
        return;
    }
    let last = input.len() - 1;
    let places = match rng.below(5) {
        0 => vec![0],
        1 => vec![last],
        2 => vec![rng.between(0, last)],
        3 => vec![rng.between(0, last), rng.between(0, last)],
        _ => vec![0, last],
    };
    for at in places {
        input[at] = odd(rng);
    }
}

pub fn convert_case(rng: &mut Rng) -> ConvertCase {
    let direction = rng.pick(&[Direction::ToEbcdic, Direction::ToAscii]);
    let size = length(rng);
    let mut input = accepted(rng, direction, size);
    if rng.once_in(20) {
        rng.fill(&mut input);
    } else if rng.percent(30) {
        damage(rng, &mut input);
    }
    let room = match rng.below(10) {
        0 | 1 => size.saturating_sub(1),
        2 => rng.between(0, size),
        3..=6 => size,
        7 => size + 1,
        _ => size + rng.below(600),
    };
    ConvertCase {
        direction,
        input,
        out: rng.bytes(room),
        place: rng.number(),
    }
}
