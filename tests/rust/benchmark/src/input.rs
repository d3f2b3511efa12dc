//! The inputs of the benchmark.

use generator::bulk;
use generator::records::{control, totals, Record};
use generator::rng::Rng;
use generator::text::text;

/// Rows or details of the cases that name no other number.
pub const MANY: usize = 65_535;
pub const STATE: [u8; 2] = [0xD6, 0xC8];
pub const TYPES: &[u8] = b"MCBLRZST";

/// What apply gets.
pub struct Input {
    pub name: String,
    pub master: Vec<u8>,
    pub rows: usize,
    pub details: usize,
    pub batch: Vec<u8>,
    pub list: Vec<u8>,
    /// Rows that an engine moves if it makes place for each add at once.
    pub moved: f64,
}

pub fn input(name: &str, rows: usize, room: usize, details: &[Record], moved: f64) -> Input {
    let mut master = bulk::rows(STATE, rows, 2);
    master.resize(room * 200, 0xA5);
    let mut batch = details.concat();
    batch.extend_from_slice(&control(STATE, totals(details)));
    Input {
        name: name.to_string(),
        master,
        rows,
        details: details.len(),
        batch,
        list: text("001002003"),
        moved,
    }
}

/// Row numbers in scattered order.
pub fn scattered(rng: &mut Rng, rows: usize) -> Vec<usize> {
    let mut places: Vec<usize> = (0..rows).collect();
    rng.shuffle(&mut places);
    places
}

/// Changes alone, each on another row.
pub fn changes(name: &str, rows: usize, count: usize) -> Input {
    let mut rng = Rng::new(count as u64);
    let details: Vec<Record> = scattered(&mut rng, rows)
        .iter()
        .take(count)
        .map(|place| bulk::change(&mut rng, STATE, 2 * place, TYPES))
        .collect();
    input(name, rows, rows, &details, 0.0)
}

/// Adds between the rows, and with `changed` a change on every row too, in scattered order.
pub fn adds(name: &str, rows: usize, count: usize, changed: bool) -> Input {
    let mut rng = Rng::new(7);
    let mut details: Vec<Record> = scattered(&mut rng, rows)
        .iter()
        .take(count)
        .map(|place| bulk::add(STATE, 2 * place + 1))
        .collect();
    if changed {
        for place in 0..rows {
            details.push(bulk::change(&mut rng, STATE, 2 * place, TYPES));
        }
    }
    rng.shuffle(&mut details);
    let moved = count as f64 * (rows as f64 + count as f64 / 2.0) / 2.0;
    input(name, rows, rows + count, &details, moved)
}

/// No rows, and adds in falling key order.
pub fn falling(name: &str, count: usize) -> Input {
    let details: Vec<Record> = (0..count)
        .rev()
        .map(|number| bulk::add(STATE, number))
        .collect();
    input(name, 0, count, &details, (count as f64).powi(2) / 2.0)
}

/// Details of one key alone, half of them B with different names, half M; the names of the Ms are
/// those of Bs if `given`, else of none.
pub fn renames(name: &str, rows: usize, count: usize, given: bool) -> Input {
    let mut rng = Rng::new(13);
    let details = bulk::renames(&mut rng, STATE, 2 * (rows / 2), count, given);
    input(name, rows, rows, &details, 0.0)
}

/// 65,535 rows, and keys of rows for find.
pub fn lookup(keys: usize) -> (Vec<u8>, Vec<Vec<u8>>, [u8; 2]) {
    let master = bulk::rows(STATE, MANY, 2);
    let mut rng = Rng::new(11);
    let keys = scattered(&mut rng, MANY)
        .iter()
        .take(keys)
        .map(|place| master[place * 200..place * 200 + 12].to_vec())
        .collect();
    (master, keys, STATE)
}
