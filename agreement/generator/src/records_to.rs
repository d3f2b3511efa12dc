//! Cases for the records that lead to a wanted case: rows that differ by each field, in ways that
//! records can bring about and in ways that none can; and the damages that the refusals name.

use crate::cases::{damage_list, damage_rows};
use crate::rng::Rng;
use crate::rows::{row, ROW};
use crate::text::{digits, number, put, put_text, SPACE};
use crate::wild;
use crate::world::World;

#[derive(Clone, Debug, PartialEq, Eq)]
pub struct RecordsToCase {
    pub row: Vec<u8>,
    pub wanted: Vec<u8>,
    pub list: Vec<u8>,
    pub out: Vec<u8>,
    pub records: u64,
}

pub fn records_to_case(rng: &mut Rng) -> RecordsToCase {
    if rng.percent(2) {
        return wild_case(rng);
    }
    let mut world = World::new(rng, 1, 0);
    world.known[0].live = rng.percent(88);
    let mut row = row(rng, &world, &world.known[0]);
    if rng.percent(30) {
        // Whole dollars.
        let live = row[195] == SPACE;
        put_owed(&mut row, u64::from(live) * 40, 0);
    }
    let mut wanted = row;
    if rng.percent(10) {
        change_all(rng, &world, &mut wanted);
    }
    for _ in 0..rng.pick(&[0, 1, 1, 1, 2, 3, 4]) {
        change(rng, &world, &mut wanted);
    }
    let length = match rng.below(12) {
        0 => 979,
        1 => rng.below(980),
        2..=4 => 980 + rng.below(300),
        _ => 980,
    };
    let mut case = RecordsToCase {
        row: row.to_vec(),
        wanted: wanted.to_vec(),
        list: world.list_bytes(),
        out: rng.bytes(length),
        records: rng.number(),
    };
    if rng.percent(12) {
        damage(rng, &mut case);
    }
    case
}

/// Dollars and cents with the status that goes with them.
fn put_owed(row: &mut [u8; ROW], dollars: u64, cents: u64) {
    put(row, 66, &digits(dollars, 8));
    put(row, 197, &digits(cents, 2));
    row[195] = if dollars + cents == 0 { 0xC4 } else { SPACE };
}

/// Each of the four fields with a value that a record can give it.
fn change_all(rng: &mut Rng, world: &World, row: &mut [u8; ROW]) {
    put_text(row, 16, "CASE 2         ");
    let codes = world.list.iter().chain(&[[0xF0; 3]]).copied();
    let others: Vec<[u8; 3]> = codes.filter(|code| row[12..15] != code[..]).collect();
    if !others.is_empty() {
        put(row, 13, &rng.pick(&others));
    }
    row[194] = !row[194] & 0b1111_1110;
    let dollars = rng.pick(&[0, 1, 77, 99_999_999]);
    put_owed(row, dollars, 0);
}

/// One field, mostly with a value that a record can give it.
fn change(rng: &mut Rng, world: &World, row: &mut [u8; ROW]) {
    match rng.below(20) {
        0..=3 => {
            let mut id = [SPACE; 15];
            match rng.below(6) {
                0 => {}
                1 => rng.fill(&mut id),
                2 => id[14] = 0xF1,
                _ => put_text(&mut id, 1, rng.pick(&["CASE 1", "X", "A-2"])),
            }
            put(row, 16, &id);
        }
        4..=7 => match rng.below(4) {
            0 => put(row, 13, &[0xF0; 3]),
            1 => put(row, 13, &digits(rng.below(1000) as u64, 3)),
            _ if !world.list.is_empty() => put(row, 13, &rng.pick(&world.list)),
            _ => {}
        },
        8..=12 => {
            let set = rng.below(256) as u8;
            row[194] = match rng.below(4) {
                // Closed: ADM with the other three, or without itself.
                0 => set | 0b1111,
                1 => set & 0b1111_1110,
                2 => set | 1,
                _ => set,
            };
        }
        13..=17 => {
            let dollars = rng.pick(&[0, 1, 25, 40, 41, 99_999_999]);
            let cents = rng.pick(&[0, 0, 0, 0, 1, 50, 99]);
            match rng.below(4) {
                0 => {
                    // The cents alone.
                    let kept = number(&row[65..73]).unwrap_or(0);
                    put_owed(row, kept, cents);
                }
                _ => put_owed(row, dollars, cents),
            }
        }
        _ => change_other(rng, row),
    }
}

/// A byte that none of the four types gives, mostly left sound.
fn change_other(rng: &mut Rng, row: &mut [u8; ROW]) {
    match rng.below(8) {
        0 => row[11] ^= 0xC1 ^ 0xD5,
        1 => row[10] = 0xF0 + rng.between(1, 9) as u8,
        2 => put_text(row, 31, rng.pick(&["SMYT", "LI  ", "Z   "])),
        3 => row[rng.between(34, 64)] ^= 1,
        4 => row[rng.between(73, 77)] ^= 1,
        5 => row[rng.between(78, 89)] = 0xF0 + rng.below(10) as u8,
        6 => row[rng.between(90, 193)] ^= 1 << rng.below(8),
        _ => put_text(row, 1, rng.pick(&["AK", "OH", "WY"])),
    }
}

fn damage(rng: &mut Rng, case: &mut RecordsToCase) {
    let argument = if rng.percent(50) {
        &mut case.row
    } else {
        &mut case.wanted
    };
    match rng.below(8) {
        0 | 1 => damage_list(rng, &mut case.list),
        2..=5 => damage_rows(rng, argument, 1),
        6 => {
            let length = rng.pick(&[0, 1, 199, 199]);
            argument.truncate(length);
        }
        _ => {
            let more = rng.pick(&[1, 200]);
            argument.extend(rng.bytes(more));
        }
    }
}

/// Buffers of any length with any bytes.
fn wild_case(rng: &mut Rng) -> RecordsToCase {
    let list = if rng.percent(80) {
        Vec::new()
    } else {
        wild::bytes(rng)
    };
    RecordsToCase {
        row: wild::bytes(rng),
        wanted: wild::bytes(rng),
        list,
        out: wild::bytes(rng),
        records: rng.number(),
    }
}
