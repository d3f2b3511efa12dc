//! Cases for the calls: mostly carried out, then damaged in the ways that the refusals name.

use std::collections::BTreeSet;

use crate::bulk::{self, SIXTEEN_BITS};
use crate::contacts::{self, CodesCase, UpdateCase};
use crate::crowd;
use crate::files::{convert_case, ConvertCase};
use crate::posting::{self, CentsCase, PostCase};
use crate::records::{control, detail, totals, Record, RECORD};
use crate::rng::Rng;
use crate::rows::{rows, ROW};
use crate::text::{digits, put, put_text, text, EDGES, STATES};
use crate::world::{unsound_key, World};

#[derive(Clone, Debug, PartialEq, Eq)]
pub struct ApplyCase {
    pub master: Vec<u8>,
    pub rows: usize,
    pub batch: Vec<u8>,
    pub list: Vec<u8>,
    pub year: u64,
    pub verdicts: Vec<u64>,
    pub rejects: Vec<u8>,
    pub result: [u64; 5],
}

#[derive(Clone, Debug, PartialEq, Eq)]
pub struct FindCase {
    pub master: Vec<u8>,
    pub rows: usize,
    pub key: Vec<u8>,
    pub place: u64,
}

#[derive(Clone, Debug, PartialEq, Eq)]
pub struct ReconcileCase {
    pub master: Vec<u8>,
    pub rows: usize,
    pub state: Vec<u8>,
    pub date: Vec<u8>,
    pub out: Vec<u8>,
    pub records: u64,
}

#[derive(Clone, Debug, PartialEq, Eq)]
pub enum Case {
    Apply(ApplyCase),
    Find(FindCase),
    Reconcile(ReconcileCase),
    Convert(ConvertCase),
    Update(UpdateCase),
    Codes(CodesCase),
    Cents(CentsCase),
    Post(PostCase),
}

/// The case of a seed.
pub fn case(seed: u64) -> Case {
    let mut rng = Rng::new(seed);
    if rng.once_in(2500) {
        return Case::Apply(giant(&mut rng));
    }
    if rng.once_in(4000) {
        return Case::Update(contacts::giant(&mut rng));
    }
    if rng.once_in(4000) {
        return Case::Post(posting::giant(&mut rng));
    }
    if rng.once_in(200) {
        return wild(&mut rng);
    }
    match rng.below(16) {
        0 => Case::Find(find_case(&mut rng)),
        1 => Case::Reconcile(reconcile_case(&mut rng)),
        2 => Case::Convert(convert_case(&mut rng)),
        3 => Case::Update(contacts::update_case(&mut rng)),
        4 => Case::Codes(contacts::codes_case(&mut rng)),
        5 => Case::Cents(posting::cents_case(&mut rng)),
        6 | 7 => Case::Post(posting::post_case(&mut rng)),
        _ => Case::Apply(apply_case(&mut rng)),
    }
}

/// A case for apply alone.
pub fn apply_only(seed: u64) -> ApplyCase {
    apply_case(&mut Rng::new(seed))
}

pub fn size(rng: &mut Rng) -> usize {
    match rng.below(40) {
        0..=2 => 0,
        3..=23 => rng.between(1, 6),
        24..=36 => rng.between(7, 40),
        37 | 38 => rng.between(41, 150),
        _ => rng.between(150, 700),
    }
}

/// Lengthens a number list or buffer: just enough half of the time.
fn spare(rng: &mut Rng, much: usize) -> usize {
    match rng.below(4) {
        0 | 1 => 0,
        2 => 1,
        _ => rng.below(much + 1),
    }
}

/// A details that no row at entry has the key of, every one counted.
pub fn added(details: &[Record], world: &World) -> usize {
    let keys: BTreeSet<_> = world.known.iter().map(|known| known.key).collect();
    details
        .iter()
        .filter(|record| {
            let mut key = [0; 12];
            put(&mut key, 1, &record[..2]);
            put(&mut key, 3, &record[5..14]);
            key[11] = record[73];
            record[72] == 0xC1 && !keys.contains(&key)
        })
        .count()
}

fn numbers(rng: &mut Rng, length: usize) -> Vec<u64> {
    (0..length).map(|_| rng.number()).collect()
}

fn apply_case(rng: &mut Rng) -> ApplyCase {
    let crowded = rng.percent(30);
    let (entry, extra) = if crowded {
        (rng.below(4), rng.between(1, 2))
    } else {
        (size(rng), rng.below(8))
    };
    let mut world = World::new(rng, entry, extra);
    let mut master = rows(rng, &world);
    let at_entry = world.clone();
    let count = if rng.once_in(1500) {
        rng.between(998, 1010)
    } else {
        size(rng)
    };
    let wide = count >= 998;
    let care = rng.pick(&[50, 80, 80, 90, 100]);
    let mut details: Vec<Record> = if crowded {
        crowd::details(rng, &world, count)
    } else {
        (0..count).map(|_| detail(rng, &mut world, care)).collect()
    };
    if wide {
        // Sums around the eleven digits that a total can hold.
        for record in &mut details {
            record[72] = 0xD4;
            record[73] = 0xC1;
            put(record, 65, &[0xF9; 8]);
        }
    }
    let new = added(&details, &at_entry);
    let mut batch = details.concat();
    batch.extend_from_slice(&control(world.state, totals(&details)));
    let rows = at_entry.known.len();
    let room = rows + new + spare(rng, 6);
    let behind = room * ROW - master.len();
    master.extend(rng.bytes(behind));
    let verdicts = count + spare(rng, 5);
    let rejects = RECORD * (count + 1) + spare(rng, 600);
    let mut case = ApplyCase {
        master,
        rows,
        batch,
        list: world.list_bytes(),
        year: world.year,
        verdicts: numbers(rng, verdicts),
        rejects: rng.bytes(rejects),
        result: std::array::from_fn(|_| rng.number()),
    };
    let faults = match rng.below(100) {
        0..=64 => 0,
        65..=91 => 1,
        _ => rng.between(2, 4),
    };
    for _ in 0..faults {
        damage_apply(rng, &mut case, rows + new, count);
    }
    case
}

/// One fault of those that apply refuses; `need` is the room asked for.
fn damage_apply(rng: &mut Rng, case: &mut ApplyCase, need: usize, details: usize) {
    match rng.below(15) {
        0 => case.year = wrong_year(rng),
        1 => damage_list(rng, &mut case.list),
        2 => damage_length(rng, &mut case.master, &mut case.rows),
        3 => damage_rows(rng, &mut case.master, case.rows),
        4 => damage_batch_length(rng, &mut case.batch),
        5 | 13 | 14 => damage_control(rng, &mut case.batch),
        6 => damage_totals(rng, &mut case.batch, 6, 9, 2),
        7 => damage_totals(rng, &mut case.batch, 24, 11, 2),
        8 | 9 => {
            // Room for one row too few, where there is an add.
            if need > case.rows {
                case.master.truncate((need - 1) * ROW);
            }
        }
        10 => case.verdicts.truncate(details.saturating_sub(1)),
        11 => {
            let length = match rng.below(3) {
                0 => rng.below(RECORD * (details + 1)),
                _ => RECORD * (details + 1) - 1,
            };
            case.rejects.truncate(length);
        }
        _ => {
            let bytes = if rng.percent(50) {
                &mut case.batch
            } else {
                &mut case.master
            };
            if !bytes.is_empty() {
                let at = rng.below(bytes.len());
                bytes[at] = rng.below(256) as u8;
            }
        }
    }
}

fn wrong_year(rng: &mut Rng) -> u64 {
    match rng.below(3) {
        0 => rng.number(),
        1 => rng.pick(&[
            0,
            1899,
            10_000,
            u64::MAX,
            1 << 32,
            (1 << 32) + 2007,
            65_536 + 2007,
        ]),
        _ => rng.pick(&[1899, 10_000]),
    }
}

pub fn damage_list(rng: &mut Rng, list: &mut Vec<u8>) {
    let length = list.len();
    match rng.below(6) {
        0 => list.push(0xF9),
        1 => {
            list.pop();
        }
        2 if length >= 3 => {
            let last = list[length - 3..].to_vec();
            list.extend(last);
        }
        3 if length >= 6 => {
            let at = 3 * rng.below(length / 3 - 1);
            list[at..at + 6].rotate_left(3);
        }
        4 => list.extend([0xF9, 0xF9, rng.pick(&[0xFA, 0x40, 0xEF])]),
        _ if length > 0 => list[rng.below(length)] = rng.pick(&EDGES),
        _ => list.extend([0xF1, 0xF2]),
    }
}

pub fn damage_length(rng: &mut Rng, master: &mut Vec<u8>, rows: &mut usize) {
    match rng.below(6) {
        0 => master.extend(rng.bytes(1)),
        1 => {
            let more = rng.between(1, 199);
            master.extend(rng.bytes(more));
        }
        2 => {
            master.pop();
        }
        3 => *rows = master.len() / ROW + 1,
        4 => {
            *rows = rng.pick(&[
                usize::MAX,
                usize::MAX / ROW,
                usize::MAX / ROW + 1,
                65_536,
                16_777_215,
                16_777_216,
                1 << 32,
                1 << 63,
            ])
        }
        // A smaller count is right, but the rows behind it are none.
        _ => *rows = rng.below(*rows + 1),
    }
}

pub fn damage_rows(rng: &mut Rng, master: &mut [u8], rows: usize) {
    let rows = rows.min(master.len() / ROW);
    if rows == 0 {
        return;
    }
    let at = match rng.below(4) {
        0 => 0,
        1 => rows - 1,
        _ => rng.below(rows),
    };
    let row = &mut master[at * ROW..(at + 1) * ROW];
    match rng.below(18) {
        0 => put_text(row, 1, rng.pick(&["ZZ", "  ", "oh", "AA"])),
        1 => put(row, 3, &unsound_key(rng, [0xD6, 0xC8])[2..11]),
        2 => row[11] = rng.pick(&EDGES),
        3 => row[12 + rng.below(3)] = rng.pick(&EDGES),
        4 => row[30 + rng.below(4)] = rng.pick(&EDGES),
        5 => put_text(
            row,
            31,
            rng.pick(&["----", "    ", "A B ", " ABC", "-   ", "AB1 "]),
        ),
        6 => row[65 + rng.below(8)] = rng.pick(&EDGES),
        7 => row[78 + rng.below(12)] = rng.pick(&EDGES),
        8 => row[195] = rng.pick(&[0x40, 0xC4, 0x00, 0xC5]),
        9 => put(row, 66, &[0xF0; 8]),
        10 => put(row, 66, &digits(1, 8)),
        11 | 16 | 17 => row[196 + rng.below(4)] = rng.pick(&EDGES),
        12 => put_text(row, 197, rng.pick(&["00", "01", "10", "  ", "0 ", " 0"])),
        13 => {
            // Nothing owed, and still live.
            put(row, 66, &[0xF0; 8]);
            put(row, 196, &[0x40, 0xF0, 0xF0]);
        }
        14 if at > 0 => {
            // The same key twice, or two rows turned round.
            let (before, row) = master.split_at_mut(at * ROW);
            let before = &mut before[(at - 1) * ROW..];
            if rng.percent(50) {
                row[..12].copy_from_slice(&before[..12]);
            } else {
                before.swap_with_slice(&mut row[..ROW]);
            }
        }
        _ => {
            // Often a byte that is free.
            let place = rng.below(ROW);
            row[place] = rng.below(256) as u8;
        }
    }
}

pub fn damage_batch_length(rng: &mut Rng, batch: &mut Vec<u8>) {
    match rng.below(5) {
        0 => batch.clear(),
        1 => {
            batch.pop();
        }
        2 => batch.push(0x40),
        3 => {
            let more = rng.between(1, 244);
            batch.extend(rng.bytes(more));
        }
        _ => {
            let length = rng.below(batch.len() + 1);
            batch.truncate(length);
        }
    }
}

/// The last record, where there is a whole one.
fn last_record(batch: &mut [u8]) -> Option<&mut [u8]> {
    let start = batch.len().checked_sub(RECORD)?;
    Some(&mut batch[start..])
}

/// Damages one part of the control record, two or all three, or writes another state of the table.
pub fn damage_control(rng: &mut Rng, batch: &mut [u8]) {
    let Some(record) = last_record(batch) else {
        return;
    };
    let mut parts = [damage_ctl, damage_state, damage_rest];
    rng.shuffle(&mut parts);
    let count = match rng.below(10) {
        0 => {
            put_text(record, 1, rng.pick(&STATES));
            0
        }
        1..=4 => 1,
        5..=7 => 2,
        _ => 3,
    };
    for part in &parts[..count] {
        part(rng, record);
    }
}

/// The state, mostly one that isn't in the table.
fn damage_state(rng: &mut Rng, record: &mut [u8]) {
    match rng.below(4) {
        0 => record[rng.below(2)] = rng.pick(&EDGES),
        _ => put_text(record, 1, rng.pick(&["ZZ", "  ", "oh", "AA", "O "])),
    }
}

fn damage_ctl(rng: &mut Rng, record: &mut [u8]) {
    match rng.below(4) {
        0 => record[2 + rng.below(3)] = rng.pick(&EDGES),
        _ => put_text(record, 3, rng.pick(&["CTR", "   ", "ctl", "RCT", "CT "])),
    }
}

/// A total or the filler.
fn damage_rest(rng: &mut Rng, record: &mut [u8]) {
    match rng.below(8) {
        0 | 1 => record[5 + rng.below(40)] = rng.pick(&EDGES),
        2 | 3 => record[45 + rng.below(200)] = rng.pick(&EDGES),
        4 => record[rng.pick(&[5, 13, 14, 22, 23, 33, 34])] = rng.pick(&EDGES),
        5 | 6 => record[rng.pick(&[44, 45, 244])] = rng.pick(&EDGES),
        _ => record[rng.between(5, RECORD - 1)] = rng.below(256) as u8,
    }
}

/// Changes one of `fields` totals of a width, the first at a column.
pub fn damage_totals(rng: &mut Rng, batch: &mut [u8], column: usize, width: usize, fields: usize) {
    let Some(record) = last_record(batch) else {
        return;
    };
    let first = column - 1;
    match rng.below(4) {
        0 => {
            let (one, two) = record[first..first + 2 * width].split_at_mut(width);
            one.swap_with_slice(two);
        }
        1 => record[first + rng.below(width * fields)] = 0xF0 + rng.below(10) as u8,
        2 => record[first + width * rng.below(fields)] = 0xF1,
        _ => {
            let last = first + width * rng.between(1, fields) - 1;
            record[last] = 0xF0 + (record[last] & 15).wrapping_add(1) % 10;
        }
    }
}

fn find_case(rng: &mut Rng) -> FindCase {
    let entry = size(rng);
    let mut world = World::new(rng, entry, 3);
    let mut master = rows(rng, &world);
    let more = ROW * spare(rng, 3);
    master.extend(rng.bytes(more));
    let mut key = match rng.below(10) {
        0 => unsound_key(rng, world.state).to_vec(),
        1 | 2 => world.fresh.pop().unwrap_or([0x40; 12]).to_vec(),
        3 => detail(rng, &mut world, 50)[..12].to_vec(),
        _ if world.known.is_empty() => world.fresh.pop().unwrap_or([0x40; 12]).to_vec(),
        4 => world.known[0].key.to_vec(),
        5 => world.known[world.known.len() - 1].key.to_vec(),
        _ => world.known[rng.below(world.known.len())].key.to_vec(),
    };
    match rng.below(30) {
        0 => {
            key.pop();
        }
        1 => key.push(rng.pick(&[0x40, 0xC1])),
        2 => key.clear(),
        3 | 4 => key[rng.below(12)] = rng.pick(&EDGES),
        5 => key[11] ^= 0xC1 ^ 0xD5,
        _ => {}
    }
    let mut case = FindCase {
        rows: entry.min(world.known.len()),
        master,
        key,
        place: rng.number(),
    };
    if rng.percent(10) {
        damage_length(rng, &mut case.master, &mut case.rows);
    }
    if rng.percent(10) {
        damage_rows(rng, &mut case.master, case.rows);
    }
    case
}

fn reconcile_case(rng: &mut Rng) -> ReconcileCase {
    let entry = size(rng);
    let world = World::new(rng, entry, 3);
    let mut master = rows(rng, &world);
    let more = ROW * spare(rng, 3);
    master.extend(rng.bytes(more));
    let mut state = match rng.below(12) {
        0 | 1 => world.other.to_vec(),
        2 => text(rng.pick(&["ZZ", "  ", "oh", "", "O", "OHI", "A "])),
        3 => vec![rng.pick(&EDGES), rng.pick(&EDGES)],
        _ => world.state.to_vec(),
    };
    if rng.percent(2) {
        state.push(0x40);
    }
    let date = match rng.below(6) {
        0 => text(rng.pick(&[
            "19000229",
            "20070230",
            "18991231",
            "20071301",
            "20070001",
            "20070100",
            "        ",
            "",
            "2007010",
            "200701011",
            "20070432",
            "20070431",
        ])),
        1 => text(rng.pick(&[
            "20000229", "20040229", "19000101", "99991231", "21000228", "20071130",
        ])),
        2 => {
            let mut date = text("20070131");
            date[rng.below(8)] = rng.pick(&EDGES);
            date
        }
        _ => text("20261115"),
    };
    let records = world
        .known
        .iter()
        .filter(|known| known.live && known.key[..2] == state[..])
        .count();
    let enough = RECORD * (records + 1);
    let length = match rng.below(8) {
        0 => enough - 1,
        1 => rng.below(enough),
        _ => enough + spare(rng, 600),
    };
    let mut case = ReconcileCase {
        rows: world.known.len(),
        master,
        state,
        date,
        out: rng.bytes(length),
        records: rng.number(),
    };
    if rng.percent(8) {
        damage_length(rng, &mut case.master, &mut case.rows);
    }
    if rng.percent(8) {
        damage_rows(rng, &mut case.master, case.rows);
    }
    case
}

/// Buffers of any length with any bytes.
fn wild(rng: &mut Rng) -> Case {
    let most = rng.pick(&[1, 3, 13, 250, 1000]);
    let any = |rng: &mut Rng| {
        let length = match rng.below(3) {
            0 => 0,
            1 => rng.pick(&[2, 8, 12, 200, 245, 400, 490]),
            _ => rng.below(most),
        };
        rng.bytes(length)
    };
    let rows = match rng.below(3) {
        0 => 0,
        1 => rng.below(4),
        _ => rng.number() as usize,
    };
    match rng.below(7) {
        0 => Case::Find(FindCase {
            master: any(rng),
            rows,
            key: any(rng),
            place: rng.number(),
        }),
        1 => Case::Reconcile(ReconcileCase {
            master: any(rng),
            rows,
            state: any(rng),
            date: any(rng),
            out: any(rng),
            records: rng.number(),
        }),
        2 => Case::Update(contacts::wild_update(rng)),
        3 => Case::Codes(contacts::wild_codes(rng)),
        4 => Case::Cents(CentsCase {
            master: any(rng),
            rows,
        }),
        5 => Case::Post(posting::wild(rng)),
        _ => Case::Apply(ApplyCase {
            master: any(rng),
            rows,
            batch: any(rng),
            list: if rng.percent(80) {
                Vec::new()
            } else {
                any(rng)
            },
            year: if rng.percent(80) { 2007 } else { rng.number() },
            verdicts: numbers(rng, 2),
            rejects: any(rng),
            result: std::array::from_fn(|_| rng.number()),
        }),
    }
}

/// Cases of about 65,536 rows or details.
pub fn giant(rng: &mut Rng) -> ApplyCase {
    let state = [0xD6, 0xC8];
    let kind = rng.below(8);
    let (rows, room, details) = match kind {
        // No room for a row more.
        0 => (SIXTEEN_BITS, SIXTEEN_BITS, 1),
        // Room for it.
        1 => (SIXTEEN_BITS - 1, SIXTEEN_BITS + 4, 3),
        2 => (SIXTEEN_BITS, SIXTEEN_BITS + 1, 1),
        // Details of few rows.
        3 => (40, 50, SIXTEEN_BITS - 1),
        4 => (40, 50, SIXTEEN_BITS + 1),
        // All of them under one key.
        5 | 6 => (2, 2, SIXTEEN_BITS + 1),
        _ => (SIXTEEN_BITS + 1, SIXTEEN_BITS + 1, 20),
    };
    let mut master = bulk::rows(state, rows, 2);
    master.resize(room * ROW, 0xA5);
    let list = text("001002");
    let mut details: Vec<Record> = match kind {
        5 | 6 => bulk::renames(rng, state, 2, details, kind == 5),
        _ => (0..details)
            .map(|_| bulk::change(rng, state, 2 * rng.clone().below(rows), b"MCBLRZSTD"))
            .collect(),
    };
    if kind <= 2 {
        details[0] = bulk::add(state, 2 * rng.below(rows) + 1);
    }
    let mut batch = details.concat();
    batch.extend_from_slice(&control(state, totals(&details)));
    ApplyCase {
        master,
        rows,
        batch,
        list,
        year: 2007,
        verdicts: vec![rng.number(); details.len()],
        rejects: vec![0x5A; RECORD * (details.len() + 1)],
        result: std::array::from_fn(|_| rng.number()),
    }
}
