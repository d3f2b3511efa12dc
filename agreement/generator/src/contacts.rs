//! Cases for the contact file: tables and files of mostly good records, every kind of fault at its
//! edges, and the damages that refusals 18, 19 and 12 name.

use std::collections::BTreeMap;

use crate::bulk::SIXTEEN_BITS;
use crate::rng::Rng;
use crate::text::{digits, put, put_text, state, EDGES, SPACE, STATES};

pub const CONTACT: usize = 220;
pub type Contact = [u8; CONTACT];
type Key = [u8; 5];

#[derive(Clone, Debug, PartialEq, Eq)]
pub struct UpdateCase {
    pub table: Vec<u8>,
    pub count: usize,
    pub file: Vec<u8>,
    pub faulty: Vec<u32>,
    pub result: [u64; 2],
}

#[derive(Clone, Debug, PartialEq, Eq)]
pub struct CodesCase {
    pub table: Vec<u8>,
    pub count: usize,
    pub state: Vec<u8>,
    pub out: Vec<u8>,
    pub codes: u64,
}

/// First columns of the agency name and of lines 1 to 4; each has 35.
const TEXTS: [usize; 5] = [42, 77, 112, 147, 182];
const WIDTH: usize = 35;

const NAMES: [&str; 8] = [
    "BUREAU OF CHILD SUPPORT ENFORCEMENT",
    "CHILD SUPPORT",
    "FAMILY SUPPORT",
    "OFFICE OF FAMILY SUPPORT",
    "XCHILD SUPPORTX",
    "CHILD CHILD SUPPORT",
    "FAMILY CHILD SUPPORT",
    "MIDFAMILY SUPPORTS",
];
const BAD_NAMES: [&str; 12] = [
    "",
    "CHILD  SUPPORT",
    "CHILDSUPPORT",
    "CHILD-SUPPORT",
    "CHILD SUPPOR",
    "CHILD SUPPOR T",
    "CHIL SUPPORT",
    "child support",
    "Child Support",
    "FAMILYSUPPORT",
    "FAMILY  SUPPORT",
    "SUPPORT FAMILY",
];
/// Runs of letters that are, or nearly are, IRS or FMS.
const RUNS: [&str; 16] = [
    "IRS", "FMS", "IRS1", "(FMS)", "1IRS", "-FMS-", "FIRST", "IRSA", "AIRS", "FMSS", "FFMS",
    "I RS", "IR", "RS", "irs", "IRSFMS",
];
const BAD_TELEPHONES: [&str; 10] = [
    "              ",
    "(301)555-1212 ",
    " (301) 555-121",
    "301 555-1212  ",
    "(301) 555 1212",
    "(301)-555-1212",
    "(301) 555-121 ",
    ")301( 555-1212",
    "(301) 5551-212",
    "(3011 555-1212",
];
const EXTENSIONS: [&str; 6] = ["    ", "1   ", "12  ", "123 ", "1234", "0000"];
const BAD_EXTENSIONS: [&str; 9] = [
    " 1  ", "   1", "1 2 ", "12 4", "12A ", "A   ", "1-  ", "-   ", " 234",
];

fn telephone(rng: &mut Rng) -> Vec<u8> {
    let mut field = vec![SPACE; 14];
    put_text(&mut field, 1, "(301) 555-1212");
    for place in [2, 7] {
        put(&mut field, place, &digits(rng.number(), 3));
    }
    put(&mut field, 11, &digits(rng.number(), 4));
    field
}

/// A key of few states and codes, so that keys meet again.
fn key(rng: &mut Rng) -> Key {
    let mut key = [SPACE; 5];
    put(
        &mut key,
        1,
        &state(rng.pick(&["OH", "OH", "OK", "AK", "WY"])),
    );
    let code = match rng.below(4) {
        0 => rng.pick(&[0, 1, 999, 100]),
        1 => rng.below(1000),
        _ => rng.below(12),
    };
    put(&mut key, 3, &digits(code as u64, 3));
    key
}

/// A text of a field's width, at its start or at its end.
fn placed(rng: &mut Rng, text: &str) -> [u8; WIDTH] {
    let mut field = [SPACE; WIDTH];
    if rng.percent(10) {
        // Any bytes but letters, so that no run begins or ends by chance.
        field.fill_with(|| rng.pick(&[0x00, 0x4B, 0x60, 0xCA, 0xD0, 0xE1, 0xEA, 0xF0, 0x81]));
    }
    let place = match rng.below(3) {
        0 => WIDTH - text.len() + 1,
        1 => rng.between(1, WIDTH - text.len() + 1),
        _ => 1,
    };
    put_text(&mut field, place, text);
    field
}

/// A good record.
pub fn good(rng: &mut Rng, key: Key) -> Contact {
    let mut record = [SPACE; CONTACT];
    put(&mut record, 1, &key);
    put(&mut record, 6, &telephone(rng));
    put_text(&mut record, 20, rng.pick(&EXTENSIONS));
    if rng.percent(50) {
        put(&mut record, 24, &telephone(rng));
    }
    put_text(&mut record, 38, rng.pick(&EXTENSIONS));
    let name = rng.pick(&NAMES);
    put(&mut record, 42, &placed(rng, name));
    let lines = rng.between(1, 7);
    for (at, &column) in TEXTS[1..4].iter().enumerate() {
        if lines >> at & 1 == 1 {
            let line = rng.pick(&["1 MAIN STREET", "FIRST FLOOR", "X", "SUITE 5, IRSA BLDG"]);
            put(&mut record, column, &placed(rng, line));
        }
    }
    let line = rng.pick(&["COLUMBUS, OH 43004", "Y", "AKRON", "FMSVILLE"]);
    put(&mut record, 182, &placed(rng, line));
    record
}

/// One fault, or an edge that is none.
fn touch(rng: &mut Rng, record: &mut Contact) {
    match rng.below(22) {
        0 => put_text(record, 1, rng.pick(&["ZZ", "  ", "oh", "AA", "O ", "WZ"])),
        1 => record[2 + rng.below(3)] = rng.pick(&EDGES),
        2 => put_text(record, 6, rng.pick(&BAD_TELEPHONES)),
        3 => record[5 + rng.below(14)] = rng.pick(&EDGES),
        4 => put_text(record, 20, rng.pick(&BAD_EXTENSIONS)),
        5 => record[19 + rng.below(4)] = rng.pick(&EDGES),
        6 => put_text(record, 24, rng.pick(&BAD_TELEPHONES)),
        7 => record[23 + rng.below(14)] = rng.pick(&EDGES),
        8 => put_text(record, 38, rng.pick(&BAD_EXTENSIONS)),
        9 => record[37 + rng.below(4)] = rng.pick(&EDGES),
        10 => {
            let name = rng.pick(&BAD_NAMES);
            put(record, 42, &placed(rng, name));
        }
        11 | 18..=20 => run(rng, record),
        12 | 21 => across(rng, record),
        13 => record[76..181].fill(SPACE),
        14 => record[181..216].fill(SPACE),
        15 => record[216 + rng.below(4)] = rng.pick(&EDGES),
        16 => record[41 + rng.below(WIDTH)] = rng.pick(&EDGES),
        _ => record[rng.below(CONTACT)] = rng.pick(&EDGES),
    }
}

/// A run of letters in one of the texts, between bytes that may be letters. In the agency name it
/// stands beside CHILD SUPPORT.
fn run(rng: &mut Rng, record: &mut Contact) {
    let column = rng.pick(&TEXTS);
    let field = &mut record[column - 1..column - 1 + WIDTH];
    field.fill(SPACE);
    let (first, width) = match rng.below(2) {
        _ if column != 42 => (0, WIDTH),
        0 => {
            put_text(field, 1, "CHILD SUPPORT");
            (14, WIDTH - 14)
        }
        _ => {
            put_text(field, WIDTH - 12, "CHILD SUPPORT");
            (0, WIDTH - 14)
        }
    };
    place_run(rng, &mut field[first..first + width]);
}

/// A run at the start of a field, at its end or between.
fn place_run(rng: &mut Rng, field: &mut [u8]) {
    let text = rng.pick(&RUNS);
    let last = field.len() - text.len();
    let at = match rng.below(3) {
        0 => 0,
        1 => last,
        _ => rng.between(0, last),
    };
    if at > 0 && rng.percent(50) {
        field[at - 1] = rng.pick(&EDGES);
    }
    put_text(field, at + 1, text);
    if at < last && rng.percent(50) {
        field[at + text.len()] = rng.pick(&EDGES);
    }
}

/// Words that reach over the end of a field into the next.
fn across(rng: &mut Rng, record: &mut Contact) {
    let border = rng.pick(&TEXTS[1..]);
    let words = rng.pick(&[
        "IRS",
        "FMS",
        "AIRS",
        "IRSA",
        "CHILD SUPPORT",
        "FAMILY SUPPORT",
    ]);
    put_text(record, border - rng.between(0, words.len()), words);
}

fn record(rng: &mut Rng, key: Key, care: usize) -> Contact {
    let mut record = good(rng, key);
    if !rng.percent(care) {
        let faults = if rng.percent(80) {
            1
        } else {
            rng.between(2, 4)
        };
        for _ in 0..faults {
            touch(rng, &mut record);
        }
    }
    if rng.once_in(300) {
        rng.fill(&mut record);
    }
    record
}

fn size(rng: &mut Rng) -> usize {
    match rng.below(12) {
        0 => 0,
        1..=6 => rng.between(1, 6),
        7..=10 => rng.between(7, 40),
        _ => rng.between(41, 200),
    }
}

/// A sound table.
fn table(rng: &mut Rng) -> BTreeMap<Key, Contact> {
    let mut table = BTreeMap::new();
    for _ in 0..size(rng) {
        let key = key(rng);
        table.insert(key, good(rng, key));
    }
    table
}

fn joined(table: &BTreeMap<Key, Contact>) -> Vec<u8> {
    table.values().flatten().copied().collect()
}

fn spare(rng: &mut Rng, much: usize) -> usize {
    match rng.below(4) {
        0 | 1 => 0,
        2 => 1,
        _ => rng.below(much + 1),
    }
}

fn numbers(rng: &mut Rng, length: usize) -> Vec<u32> {
    (0..length).map(|_| rng.number() as u32).collect()
}

pub fn update_case(rng: &mut Rng) -> UpdateCase {
    let table = table(rng);
    let care = rng.pick(&[30, 60, 80, 100]);
    let mut records: Vec<Contact> = Vec::new();
    for _ in 0..size(rng) {
        let key = match table.keys().nth(rng.below(table.len() + 1)) {
            Some(&known) if rng.percent(40) => known,
            _ => key(rng),
        };
        records.push(record(rng, key, care));
    }
    let lacking = records
        .iter()
        .filter(|record| !table.keys().any(|key| record[..5] == key[..]))
        .count();
    let need = table.len() + lacking;
    let mut bytes = joined(&table);
    let behind = (need + spare(rng, 5)) * CONTACT - bytes.len();
    bytes.extend(rng.bytes(behind));
    let list = records.len() + spare(rng, 5);
    let mut case = UpdateCase {
        table: bytes,
        count: table.len(),
        file: records.concat(),
        faulty: numbers(rng, list),
        result: [rng.number(), rng.number()],
    };
    let faults = match rng.below(100) {
        0..=54 => 0,
        55..=87 => 1,
        _ => rng.between(2, 3),
    };
    for _ in 0..faults {
        damage_update(rng, &mut case, need, records.len());
    }
    case
}

fn damage_update(rng: &mut Rng, case: &mut UpdateCase, need: usize, records: usize) {
    match rng.below(8) {
        0 => damage_file(rng, &mut case.file),
        1..=4 => damage_table(rng, &mut case.table, &mut case.count),
        5 | 6 => {
            // One record too few, where there is one to add.
            if need > case.count {
                case.table.truncate((need - 1) * CONTACT);
            }
        }
        _ => case.faulty.truncate(records.saturating_sub(1)),
    }
}

fn damage_file(rng: &mut Rng, file: &mut Vec<u8>) {
    match rng.below(3) {
        0 => file.push(SPACE),
        1 => {
            file.pop();
        }
        _ => {
            let length = rng.below(file.len() + 1);
            file.truncate(length);
        }
    }
}

fn damage_table(rng: &mut Rng, table: &mut Vec<u8>, count: &mut usize) {
    let records = (*count).min(table.len() / CONTACT);
    match rng.below(12) {
        0 => table.push(SPACE),
        1 => {
            table.pop();
        }
        2 => *count = table.len() / CONTACT + 1,
        3 => {
            *count = rng.pick(&[
                usize::MAX,
                usize::MAX / CONTACT,
                usize::MAX / CONTACT + 1,
                1 << 32,
                1 << 63,
            ])
        }
        // A smaller count is right, but the records behind it are none.
        4 => *count = rng.below(count.wrapping_add(1)),
        5..=8 if records > 1 => {
            let at = rng.below(records - 1) * CONTACT;
            if rng.percent(50) {
                table.copy_within(at..at + 5, at + CONTACT);
            } else {
                table[at..at + 2 * CONTACT].rotate_left(CONTACT);
            }
        }
        _ if records > 0 => {
            let at = rng.pick(&[0, rng.clone().below(records), records - 1]) * CONTACT;
            let mut record = [SPACE; CONTACT];
            record.copy_from_slice(&table[at..at + CONTACT]);
            touch(rng, &mut record);
            table[at..at + CONTACT].copy_from_slice(&record);
        }
        _ => *count += 1,
    }
}

pub fn codes_case(rng: &mut Rng) -> CodesCase {
    let table = table(rng);
    let mut asked = match rng.below(10) {
        0 => vec![rng.pick(&EDGES), rng.pick(&EDGES)],
        1 => state(rng.pick(&STATES)).to_vec(),
        2 => crate::text::text(rng.pick(&["ZZ", "  ", "oh", "", "O", "OHI", "A "])),
        3 | 4 => state(rng.pick(&["OK", "AK", "WY"])).to_vec(),
        _ => state("OH").to_vec(),
    };
    if rng.percent(2) {
        asked.push(SPACE);
    }
    let codes = table
        .keys()
        .filter(|key| key[..2] == asked[..] && key[2..] != [0xF0; 3])
        .count();
    let room = match rng.below(8) {
        0 => (3 * codes).saturating_sub(1),
        1 => rng.below(3 * codes + 1),
        _ => 3 * codes + spare(rng, 9),
    };
    let mut bytes = joined(&table);
    let more = spare(rng, 3) * CONTACT;
    bytes.extend(rng.bytes(more));
    let mut case = CodesCase {
        table: bytes,
        count: table.len(),
        state: asked,
        out: rng.bytes(room),
        codes: rng.number(),
    };
    if rng.percent(20) {
        damage_table(rng, &mut case.table, &mut case.count);
    }
    case
}

/// About 65,536 records, most of them good.
pub fn giant(rng: &mut Rng) -> UpdateCase {
    let records = rng.pick(&[SIXTEEN_BITS - 1, SIXTEEN_BITS, SIXTEEN_BITS + 1]);
    let mut file: Vec<Contact> = (0..records).map(|at| numbered(at % 54_000)).collect();
    rng.shuffle(&mut file);
    for _ in 0..20 {
        let at = rng.below(records);
        touch(rng, &mut file[at]);
    }
    UpdateCase {
        table: vec![0xA5; records * CONTACT],
        count: 0,
        file: file.concat(),
        faulty: vec![7; records],
        result: [rng.number(), rng.number()],
    }
}

/// A good record for each of the 54,000 keys that there are, rising with their number.
pub fn numbered(number: usize) -> Contact {
    let mut record = [SPACE; CONTACT];
    put(&mut record, 1, &state(STATES[number / 1000]));
    put(&mut record, 3, &digits((number % 1000) as u64, 3));
    put_text(&mut record, 6, "(301) 555-1212");
    put_text(&mut record, 24, "(800) 555-1212");
    put_text(&mut record, 42, NAMES[0]);
    put_text(&mut record, 77, "1 MAIN STREET");
    put_text(&mut record, 182, "COLUMBUS, OH 43004");
    record
}

/// Buffers of any length with any bytes.
pub fn wild_update(rng: &mut Rng) -> UpdateCase {
    let numbers = rng.below(4);
    UpdateCase {
        table: wild_bytes(rng),
        count: wild_count(rng),
        file: wild_bytes(rng),
        faulty: vec![7; numbers],
        result: [rng.number(), rng.number()],
    }
}

pub fn wild_codes(rng: &mut Rng) -> CodesCase {
    CodesCase {
        table: wild_bytes(rng),
        count: wild_count(rng),
        state: wild_bytes(rng),
        out: wild_bytes(rng),
        codes: rng.number(),
    }
}

fn wild_bytes(rng: &mut Rng) -> Vec<u8> {
    let length = match rng.below(3) {
        0 => 0,
        1 => rng.pick(&[2, 220, 440, 660]),
        _ => rng.below(700),
    };
    rng.bytes(length)
}

fn wild_count(rng: &mut Rng) -> usize {
    match rng.below(3) {
        0 => 0,
        1 => rng.below(4),
        _ => rng.number() as usize,
    }
}
