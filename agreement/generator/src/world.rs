//! What a case is about: the state, the year, the list, the keys, and the names that the rows
//! have by the generator's own rough reckoning (enough for most records to match).

use crate::rng::Rng;
use crate::text::{digits, put, state, text, EDGES, SPACE, STATES};

pub type Key = [u8; 12];

/// A case as the generator believes it to be.
#[derive(Clone, Debug)]
pub struct Known {
    pub key: Key,
    pub last: [u8; 20],
    pub first: [u8; 15],
    pub live: bool,
}

#[derive(Clone, Debug)]
pub struct World {
    pub state: [u8; 2],
    pub other: [u8; 2],
    pub year: u64,
    pub list: Vec<[u8; 3]>,
    pub known: Vec<Known>,
    /// Keys that no row has yet.
    pub fresh: Vec<Key>,
    /// Keys that no row can have, met more than once.
    pub unsound: Vec<Key>,
}

const LAST: [&str; 16] = [
    "SMITH",
    "SMITHSON",
    "SMYTH",
    "LI",
    "O-NE",
    "ONEIL",
    "-A",
    "A-",
    "Z",
    "NGUYEN",
    "JONES",
    "JONE",
    "IJRS",
    "AIRZ",
    "DE-LA CRUZ",
    "LI   X",
];
const FIRST: [&str; 8] = [
    "JOHN",
    "JANE",
    "I",
    "J",
    "R",
    "S",
    "ZOE-ANN",
    "MAXIMILIANUS-JR",
];

pub const GOOD_SSN: [&str; 12] = [
    "001010001",
    "665999999",
    "667010001",
    "899999999",
    "899010001",
    "900000000",
    "900000001",
    "900010000",
    "999999999",
    "999000000",
    "123456789",
    "966000000",
];
pub const BAD_SSN: [&str; 12] = [
    "000000000",
    "000010001",
    "666010001",
    "666123456",
    "123004567",
    "899000001",
    "899010000",
    "899990000",
    "001000000",
    "665000000",
    "000999999",
    "100100000",
];

pub fn last_name(rng: &mut Rng) -> [u8; 20] {
    let mut name = [SPACE; 20];
    put(&mut name, 1, &text(rng.pick(&LAST)));
    if rng.percent(10) {
        rng.fill(&mut name[4..]);
    }
    if rng.percent(10) {
        name[0] = rng.pick(&[0xC1, 0xC9, 0xD1, 0xD9, 0xE2, 0xE9]);
    }
    name
}

pub fn first_name(rng: &mut Rng) -> [u8; 15] {
    let mut name = [SPACE; 15];
    put(&mut name, 1, &text(rng.pick(&FIRST)));
    if rng.percent(10) {
        rng.fill(&mut name[1..]);
    }
    name
}

/// A right SSN.
pub fn ssn(rng: &mut Rng) -> Vec<u8> {
    if rng.percent(25) {
        return text(rng.pick(&GOOD_SSN));
    }
    let area = match rng.below(10) {
        0 => rng.between(900, 999),
        1 => rng.between(1, 665),
        _ => 300 + rng.below(2),
    } as u64;
    let group = rng.between(1, 99) as u64;
    let serial = rng.between(1, 9999) as u64;
    digits(area * 1_000_000 + group * 10_000 + serial, 9)
}

/// A key that a row may have.
pub fn sound_key(rng: &mut Rng, state: [u8; 2]) -> Key {
    let mut key = [SPACE; 12];
    put(&mut key, 1, &state);
    put(&mut key, 3, &ssn(rng));
    key[11] = rng.pick(&[0xC1, 0xD5]);
    key
}

/// A key that no row can have.
pub fn unsound_key(rng: &mut Rng, state: [u8; 2]) -> Key {
    let mut key = sound_key(rng, state);
    match rng.below(6) {
        0 => put(&mut key, 1, &text("ZZ")),
        1 => put(&mut key, 1, &[rng.pick(&EDGES), rng.pick(&EDGES)]),
        2 | 3 => put(&mut key, 3, &text(rng.pick(&BAD_SSN))),
        4 => key[2 + rng.below(9)] = rng.pick(&[0x40, 0xEF, 0xFA, 0x30, 0x00]),
        _ => key[11] = rng.pick(&EDGES),
    }
    key
}

/// A list of codes, strictly rising.
fn list(rng: &mut Rng) -> Vec<[u8; 3]> {
    let length = match rng.below(10) {
        0 => 0,
        1 => rng.between(50, 300),
        _ => rng.between(1, 12),
    };
    let mut codes: Vec<usize> = (0..length).map(|_| rng.below(1000)).collect();
    if rng.percent(30) {
        codes.push(rng.pick(&[0, 1, 999, 100]));
    }
    codes.sort_unstable();
    codes.dedup();
    codes
        .iter()
        .map(|&code| digits(code as u64, 3).try_into().unwrap_or([0xF0; 3]))
        .collect()
}

impl World {
    /// A world with this many rows to come and keys to spare.
    pub fn new(rng: &mut Rng, rows: usize, spare: usize) -> World {
        let name = rng.below(STATES.len());
        let mut world = World {
            state: state(STATES[name]),
            other: state(STATES[(name + rng.between(1, 53)) % 54]),
            year: match rng.below(8) {
                0 => rng.pick(&[1900, 1901, 1906, 1907, 1908, 9999, 9998, 2000, 2007]),
                1 => rng.between(1900, 9999) as u64,
                _ => rng.between(1995, 2030) as u64,
            },
            list: list(rng),
            known: Vec::new(),
            fresh: Vec::new(),
            unsound: Vec::new(),
        };
        for _ in 0..4 {
            let key = unsound_key(rng, world.state);
            world.unsound.push(key);
        }
        let mut keys = Vec::with_capacity(rows + spare + 8);
        while keys.len() < rows + spare {
            let state = if rng.percent(12) {
                world.other
            } else {
                world.state
            };
            let mut key = sound_key(rng, state);
            keys.push(key);
            // The same number under the other case type and the other state.
            if rng.percent(25) {
                key[11] ^= 0xC1 ^ 0xD5;
                keys.push(key);
            }
            if rng.percent(8) {
                key[..2].copy_from_slice(&world.other);
                keys.push(key);
            }
        }
        keys.sort_unstable();
        keys.dedup();
        rng.shuffle(&mut keys);
        let rows = rows.min(keys.len());
        world.fresh = keys.split_off(rows);
        for key in keys {
            let known = Known {
                key,
                last: last_name(rng),
                first: first_name(rng),
                live: rng.percent(80),
            };
            world.known.push(known);
        }
        world.known.sort_unstable_by_key(|known| known.key);
        world
    }

    /// Local code of any kind; `listed` is how often of a hundred it is in the list.
    pub fn local(&self, rng: &mut Rng, listed: usize) -> [u8; 3] {
        if rng.percent(listed) && !self.list.is_empty() {
            return rng.pick(&self.list);
        }
        match rng.below(12) {
            0..=3 => [SPACE; 3],
            4..=6 => [0xF0; 3],
            7 => [0xF1, SPACE, SPACE],
            8 => [SPACE, SPACE, rng.pick(&[0xF0, 0xF1])],
            9 => {
                let mut code = rng.pick(&[[0xF0, 0xF0, 0xF0], [0xF1, 0xF2, 0xF3]]);
                code[rng.below(3)] = rng.pick(&EDGES);
                code
            }
            _ => digits(rng.below(1000) as u64, 3)
                .try_into()
                .unwrap_or([0xF0; 3]),
        }
    }

    pub fn list_bytes(&self) -> Vec<u8> {
        self.list.concat()
    }
}
