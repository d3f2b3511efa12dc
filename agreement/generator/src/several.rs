//! A file sent as several: details with the places where they are cut.

use crate::bulk::SIXTEEN_BITS;
use crate::cases::{added, apply_only, size};
use crate::crowd;
use crate::records::{batch, detail, Record, RECORD};
use crate::rng::Rng;
use crate::rows::{rows, ROW};
use crate::text::SPACE;
use crate::wild;
use crate::world::World;

#[derive(Clone, Debug)]
pub struct SeveralCase {
    pub master: Vec<u8>,
    pub rows: usize,
    pub state: [u8; 2],
    pub details: Vec<Record>,
    /// The details of each part.
    pub parts: Vec<Vec<Record>>,
    pub list: Vec<u8>,
    pub year: u64,
}

/// The twelve bytes of a record's key.
fn key(record: &Record) -> Vec<u8> {
    [&record[..2], &record[5..14], &record[73..74]].concat()
}

const B: u8 = 0xC2;

/// A file cut into any number of parts.
pub fn several_case(rng: &mut Rng) -> SeveralCase {
    let cuts = rng.pick(&[0, 1, 1, 2, 3, 5]);
    case_of(rng, cuts)
}

/// A file cut in two.
pub fn two_parts(rng: &mut Rng) -> SeveralCase {
    case_of(rng, 1)
}

fn case_of(rng: &mut Rng, cuts: usize) -> SeveralCase {
    let crowded = rng.percent(60);
    let entry = if crowded { rng.below(4) } else { rng.below(12) };
    let mut world = World::new(rng, entry, 3);
    let mut master = rows(rng, &world);
    let (rows, at_entry) = (world.known.len(), world.clone());
    let count = size(rng).min(120);
    let mut details: Vec<Record> = if crowded {
        crowd::details(rng, &world, count)
    } else {
        (0..count).map(|_| detail(rng, &mut world, 90)).collect()
    };
    let apart = arrange(rng, &mut details);
    let new = added(&details, &at_entry);
    // Now and then a place too few for the whole file, if not for its parts.
    let room = match rng.below(8) {
        0 if new > 0 => rows + new - 1,
        1 if new > 0 => rows + rng.below(new),
        _ => rows + new + rng.below(3),
    };
    let behind = room * ROW - master.len();
    master.extend(rng.bytes(behind));
    let parts = cut(rng, &details, cuts, apart);
    SeveralCase {
        master,
        rows,
        state: world.state,
        list: world.list_bytes(),
        year: world.year,
        details,
        parts,
    }
}

/// Leaves the details as they are, puts another type in place of B, or puts those of a key together;
/// answers whether the keys are to be kept apart.
fn arrange(rng: &mut Rng, details: &mut [Record]) -> bool {
    match rng.below(4) {
        0 => false,
        1 | 2 => {
            for record in details.iter_mut().filter(|record| record[72] == B) {
                record[72] = rng.pick(&[0xC4, 0xD3, 0xD4, 0xD9]);
                if record[72] == 0xD9 {
                    record[187..227].fill(SPACE);
                }
            }
            false
        }
        _ => {
            details.sort_by_key(key);
            true
        }
    }
}

/// Parts between so many cuts, which may fall together; with `apart` at the bounds of keys alone.
fn cut(rng: &mut Rng, details: &[Record], cuts: usize, apart: bool) -> Vec<Vec<Record>> {
    if details.is_empty() && cuts == 0 {
        return Vec::new();
    }
    let bound =
        |&at: &usize| at == 0 || at == details.len() || key(&details[at - 1]) != key(&details[at]);
    let places: Vec<usize> = (0..=details.len())
        .filter(|at| !apart || bound(at))
        .collect();
    let mut at: Vec<usize> = (0..cuts).map(|_| rng.pick(&places)).collect();
    at.extend([0, details.len()]);
    at.sort_unstable();
    at.windows(2)
        .map(|pair| details[pair[0]..pair[1]].to_vec())
        .collect()
}

impl SeveralCase {
    /// "no key with a B record has records in two of them"
    pub fn proviso(&self) -> bool {
        let renamed = self.details.iter().filter(|record| record[72] == B);
        renamed.map(key).all(|renamed| {
            let has = |part: &&Vec<Record>| part.iter().any(|record| key(record) == renamed);
            self.parts.iter().filter(has).count() == 1
        })
    }

    /// Some key has details in two parts.
    pub fn shared(&self) -> bool {
        self.details.iter().map(key).any(|shared| {
            let has = |part: &&Vec<Record>| part.iter().any(|record| key(record) == shared);
            self.parts.iter().filter(has).count() > 1
        })
    }
}

/// Any batch, right or not: its length, its last record, its sums.
pub fn totals_case(rng: &mut Rng) -> Vec<u8> {
    match rng.below(200) {
        0..=5 => {
            let records = SIXTEEN_BITS + rng.below(3);
            let mut bytes = vec![SPACE; records * RECORD];
            bytes[72] = 0xD4;
            bytes[73] = 0xC1;
            bytes[64..72].fill(0xF9);
            bytes
        }
        6..=15 => {
            // Sums above eleven digits.
            let mut record = [SPACE; RECORD];
            record[64..72].fill(0xF9);
            record[72] = rng.pick(&[0xC1, 0xD4]);
            record[73] = rng.pick(&[0xC1, 0xD5]);
            let count = rng.between(995, 1010);
            batch([0xD6, 0xC8], &vec![record; count])
        }
        16..=30 => wild::bytes(rng),
        _ => apply_only(rng.number()).batch,
    }
}
