//! Sound rows from a world.

use crate::rng::Rng;
use crate::text::{blank, digits, put, SPACE};
use crate::world::{Known, World};

pub const ROW: usize = 200;

/// One sound row; what the rules leave free is text, spaces or any bytes.
pub fn row(rng: &mut Rng, world: &World, known: &Known) -> [u8; ROW] {
    let mut row = [SPACE; ROW];
    if rng.percent(50) {
        rng.fill(&mut row);
        blank(&mut row, 199, 200);
    }
    put(&mut row, 1, &known.key);
    let local = world.local(rng, 60);
    let local = if local.iter().all(|&byte| (0xF0..=0xF9).contains(&byte)) {
        local
    } else {
        [0xF0; 3]
    };
    put(&mut row, 13, &local);
    put(&mut row, 31, &known.last);
    put(&mut row, 51, &known.first);
    let (dollars, cents) = owed(rng, known.live);
    put(&mut row, 66, &digits(dollars as u64, 8));
    put(&mut row, 197, &digits(cents as u64, 2));
    put(&mut row, 79, &digits(rng.number(), 12));
    if rng.percent(50) {
        blank(&mut row, 74, 78);
    }
    if rng.percent(50) {
        put(&mut row, 187, &digits(20_000_229, 8));
    }
    row[194] = if rng.percent(30) {
        0
    } else {
        rng.below(256) as u8
    };
    row[195] = if known.live { SPACE } else { 0xC4 };
    row
}

/// Dollars and cents, both zero for a deleted row alone.
fn owed(rng: &mut Rng, live: bool) -> (usize, usize) {
    if !live {
        return (0, 0);
    }
    let dollars = match rng.below(8) {
        0 => rng.between(1, 24),
        1 => rng.pick(&[1, 25, 10_000_000, 99_999_999]),
        2 => 0,
        _ => rng.between(25, 99_999),
    };
    let cents = match rng.below(4) {
        0 if dollars > 0 => 0,
        1 => rng.pick(&[1, 10, 50, 99]),
        _ => rng.between(1, 99),
    };
    (dollars, cents)
}

/// The same rows before they had cents, those of no dollars deleted.
pub fn old_rows(rng: &mut Rng, world: &World) -> Vec<u8> {
    let mut bytes = rows(rng, world);
    for row in bytes.chunks_exact_mut(ROW) {
        blank(row, 197, 200);
        row[195] = if row[65..73] == [0xF0; 8] {
            0xC4
        } else {
            SPACE
        };
    }
    bytes
}

/// The world's rows in key order, one behind the other.
pub fn rows(rng: &mut Rng, world: &World) -> Vec<u8> {
    let mut bytes = Vec::with_capacity(world.known.len() * ROW);
    for known in &world.known {
        bytes.extend_from_slice(&row(rng, world, known));
    }
    bytes
}
