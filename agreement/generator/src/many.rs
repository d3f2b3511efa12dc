//! Cases for looking up many keys: of rows, below, between and above them; and the damages that
//! refusals 3, 4, 27 and 28 name.

use crate::cases::{damage_length, damage_rows};
use crate::rng::Rng;
use crate::rows::{rows, ROW};
use crate::text::EDGES;
use crate::wild;
use crate::world::{sound_key, unsound_key, Key, World};

#[derive(Clone, Debug, PartialEq, Eq)]
pub struct ManyCase {
    pub master: Vec<u8>,
    pub rows: usize,
    pub keys: Vec<u8>,
    pub places: Vec<u32>,
    pub comparisons: u64,
}

fn size(rng: &mut Rng) -> usize {
    match rng.below(10) {
        0 => 0,
        1..=5 => rng.between(1, 6),
        6..=8 => rng.between(7, 30),
        _ => rng.between(31, 200),
    }
}

/// A key next to a row's: the other case type, or another SSN near by.
fn beside(rng: &mut Rng, mut key: Key) -> Key {
    match rng.below(3) {
        0 => key[11] ^= 0xC1 ^ 0xD5,
        1 => key[10] = 0xF0 + rng.between(1, 9) as u8,
        _ => key[9] = 0xF0 + rng.between(1, 9) as u8,
    }
    key
}

/// Keys in rising order, most of them sound.
fn keys(rng: &mut Rng, world: &World) -> Vec<Key> {
    let mut keys = Vec::new();
    for _ in 0..size(rng) {
        let row = match world.known.len() {
            0 => None,
            count => Some(world.known[rng.below(count)].key),
        };
        let key = match (rng.below(6), row) {
            (0..=2, Some(key)) => key,
            (3 | 4, Some(key)) => beside(rng, key),
            _ => {
                let state = rng.pick(&[world.state, world.other, [0xC1, 0xD2], [0xE6, 0xE8]]);
                sound_key(rng, state)
            }
        };
        keys.push(key);
    }
    keys.sort_unstable();
    keys.dedup();
    keys
}

pub fn many_case(rng: &mut Rng) -> ManyCase {
    if rng.percent(3) {
        return wild_case(rng);
    }
    let entry = size(rng);
    let world = World::new(rng, entry, 2);
    let mut master = rows(rng, &world);
    let more = ROW * rng.below(3);
    master.extend(rng.bytes(more));
    let keys = keys(rng, &world);
    let numbers = keys.len() + rng.pick(&[0, 0, 1, 4]);
    let mut case = ManyCase {
        rows: world.known.len(),
        master,
        places: (0..numbers).map(|_| rng.number() as u32).collect(),
        comparisons: rng.number(),
        keys: keys.concat(),
    };
    let faults = match rng.below(100) {
        0..=59 => 0,
        60..=89 => 1,
        _ => 2,
    };
    for _ in 0..faults {
        damage(rng, &mut case, &world);
    }
    case
}

fn damage(rng: &mut Rng, case: &mut ManyCase, world: &World) {
    let length = case.keys.len();
    let count = length / 12;
    match rng.below(12) {
        0 => damage_length(rng, &mut case.master, &mut case.rows),
        1 => damage_rows(rng, &mut case.master, case.rows),
        2 | 3 => case.places.truncate(count.saturating_sub(1)),
        4 => case.keys.truncate(rng.below(length + 1)),
        5 => {
            let more = rng.between(1, 11);
            case.keys.extend(rng.bytes(more));
        }
        _ if count == 0 => case.keys = unsound_key(rng, world.state).to_vec(),
        6 => {
            // The same key twice.
            let at = 12 * rng.below(count);
            let key = case.keys[at..at + 12].to_vec();
            case.keys.splice(at..at, key);
        }
        7 if count >= 2 => {
            let at = 12 * rng.below(count - 1);
            case.keys[at..at + 24].rotate_left(12);
        }
        8 | 9 => {
            let at = 12 * rng.below(count);
            let state = [case.keys[at], case.keys[at + 1]];
            case.keys[at..at + 12].copy_from_slice(&unsound_key(rng, state));
        }
        _ => case.keys[rng.below(length)] = rng.pick(&EDGES),
    }
}

/// Buffers of any length with any bytes.
fn wild_case(rng: &mut Rng) -> ManyCase {
    let numbers = rng.below(5);
    let empty = rng.percent(60);
    ManyCase {
        master: if empty { Vec::new() } else { wild::bytes(rng) },
        rows: if empty { 0 } else { wild::count(rng) },
        keys: wild::bytes(rng),
        places: vec![7; numbers],
        comparisons: rng.number(),
    }
}
