//! Batches with many details under few keys: names of the rows and of B records, right and faulty
//! ones, before and behind.

use crate::records::{fields, Record, BAD_NAMES, RECORD};
use crate::rng::Rng;
use crate::text::{byte, put, put_text, EDGES, SPACE};
use crate::world::{first_name, last_name, Key, Known, World};

/// The keys and names that the details of a batch share.
struct Crowd {
    keys: Vec<Key>,
    names: Vec<[u8; 20]>,
}

pub fn details(rng: &mut Rng, world: &World, count: usize) -> Vec<Record> {
    let crowd = Crowd::new(rng, world);
    (0..count).map(|_| crowd.detail(rng, world)).collect()
}

fn other_case_type(mut key: Key) -> Key {
    key[11] ^= 0xC1 ^ 0xD5;
    key
}

/// A name without a letter: right for all types but A and B.
fn hyphens(rng: &mut Rng) -> [u8; 20] {
    let mut name = [SPACE; 20];
    put_text(&mut name, 1, rng.pick(&["-", "--", "----"]));
    name
}

impl Crowd {
    fn new(rng: &mut Rng, world: &World) -> Crowd {
        let rows = world.known.iter().take(3);
        let mut keys: Vec<Key> = rows.clone().map(|known| known.key).collect();
        keys.extend(world.fresh.iter().take(2));
        if let Some(&key) = keys.first() {
            keys.push(other_case_type(key));
        }
        let mut names: Vec<[u8; 20]> = rows.map(|known| known.last).collect();
        for _ in 0..rng.between(1, 4) {
            names.push(last_name(rng));
        }
        names.push(hyphens(rng));
        Crowd { keys, names }
    }

    fn detail(&self, rng: &mut Rng, world: &World) -> Record {
        let mut record = [SPACE; RECORD];
        let known = Known {
            key: rng.pick(&self.keys),
            last: rng.pick(&self.names),
            first: first_name(rng),
            live: true,
        };
        let kind = rng.pick(b"AABBBBBBBBBCDLLMMMMRSTTZ");
        put(&mut record, 1, &known.key[..2]);
        put(&mut record, 6, &known.key[2..11]);
        record[73] = known.key[11];
        record[72] = byte(kind);
        put(&mut record, 30, &known.last);
        fields(rng, world, kind, &known, &mut record);
        if rng.percent(if kind == b'B' { 30 } else { 4 }) {
            spoil(rng, &mut record);
        }
        record
    }
}

/// One of the faults with which a B gives no name, or a byte that is free.
fn spoil(rng: &mut Rng, record: &mut Record) {
    match rng.below(4) {
        0 => put_text(record, 30, rng.pick(&BAD_NAMES)),
        1 => record[49] = rng.pick(&EDGES),
        2 => record[227 + rng.below(17)] = rng.pick(&EDGES),
        _ => record[rng.pick(&[2, 14, 33, 48, 50, 63, 64, 74, 226, 244])] = rng.pick(&EDGES),
    }
}
