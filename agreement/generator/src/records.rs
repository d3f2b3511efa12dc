//! Detail and control records: mostly right ones, and every kind of fault.

use crate::rng::Rng;
use crate::text::{
    blank, byte, digits, number, put, put_text, state, text, EDGES, SPACE, STATES, WORDS,
};
use crate::world::{first_name, last_name, sound_key, Known, World, BAD_SSN, GOOD_SSN};

pub const RECORD: usize = 245;
pub type Record = [u8; RECORD];

const BAD_STATES: [&str; 10] = ["  ", "ZZ", "AA", "KA", "oh", "OO", "A ", " K", "WZ", "00"];
const DATES: [&str; 28] = [
    "20000229", "19000229", "20040229", "20070229", "21000229", "24000229", "99960229", "20000230",
    "18991231", "19000101", "99991231", "19000228", "19000301", "20070431", "20070430", "20070631",
    "20070931", "20071131", "20071231", "20071301", "20070001", "20070100", "20070132", "00000000",
    "2007013 ", " 2007013", "20 70101", "20070230",
];
pub const BAD_NAMES: [&str; 13] = [
    "    ", "O NE", " LI ", "--  ", "-   ", "----", "L1  ", "A,B ", "A.B ", "smit", "LI X", "-- A",
    "   A",
];
const BAD_WORDS: [&str; 14] = [
    "RETPAS",
    "AD",
    "ADMX",
    "XYZ",
    "adm",
    "A",
    "DM",
    "TAXTAX",
    "0",
    "-",
    "RET-PAS",
    "DC",
    "FINN",
    "ADMRETVEN",
];

/// Columns 180–187.
fn date(rng: &mut Rng) -> Vec<u8> {
    match rng.below(6) {
        0 => text(rng.pick(&DATES)),
        1 | 2 => vec![SPACE; 8],
        _ => {
            let year = rng.between(1900, 9999);
            let month = rng.between(1, 12);
            digits((year * 10_000 + month * 100 + rng.between(1, 28)) as u64, 8)
        }
    }
}

/// Columns 188–227: words, commas and spaces; with `wrong` also words that aren't of the eight.
fn exclusions(rng: &mut Rng, wrong: bool) -> [u8; 40] {
    let mut field = [SPACE; 40];
    let mut at = if rng.percent(70) { 0 } else { rng.below(6) };
    if rng.percent(15) {
        field[..at].fill(0x6B);
    }
    let words = rng.below(10);
    let bad = if wrong { rng.below(words + 1) } else { 99 };
    for place in 0..=words {
        let word = if place == bad {
            text(rng.pick(&BAD_WORDS))
        } else if place == words {
            break;
        } else {
            text(rng.pick(&WORDS))
        };
        if at + word.len() > 40 {
            break;
        }
        put(&mut field, at + 1, &word);
        at += word.len();
        for _ in 0..if rng.percent(75) {
            1
        } else {
            rng.between(1, 4)
        } {
            if at < 40 {
                field[at] = rng.pick(&[0x40, 0x6B]);
                at += 1;
            }
        }
    }
    // A word at the field's end.
    if rng.percent(15) {
        field[36] = rng.pick(&[0x40, 0x6B]);
        put(&mut field, 38, &text(rng.pick(&WORDS)));
    }
    if wrong && rng.percent(20) {
        field[37..].copy_from_slice(&text(rng.pick(&["TAX", "ADM", "  R", "PA ", "DCK"])));
    }
    if wrong && rng.percent(20) {
        field[rng.below(40)] = rng.pick(&EDGES);
    }
    field
}

/// The five address fields, right for Z.
fn address(rng: &mut Rng, record: &mut Record) {
    blank(record, 84, 179);
    if rng.percent(80) {
        put_text(record, 84, "12 MAIN STREET");
    } else {
        put_text(record, 143, "X");
    }
    if rng.percent(30) {
        put_text(record, 114, "APT 4");
    }
    put_text(record, if rng.percent(90) { 144 } else { 168 }, "Y");
    put(record, 169, &state(rng.pick(&STATES)));
    put(record, 171, &digits(rng.number(), 9));
    if rng.percent(50) {
        blank(record, 176, 179);
    }
}

/// One fault or edge in columns 84–179.
fn touch_address(rng: &mut Rng, record: &mut Record) {
    match rng.below(9) {
        0 => blank(record, 84, 113),
        1 => blank(record, 84, 143),
        2 => blank(record, 144, 168),
        3 => blank(record, 169, 170),
        4 => put_text(record, 169, rng.pick(&BAD_STATES)),
        5 => blank(record, 171, 179),
        6 => blank(record, 84, 179),
        7 => blank(record, rng.between(171, 179), 179),
        _ => record[170 + rng.below(9)] = rng.pick(&[0x40, 0xF0, 0xF9, 0xFA, 0xEF, 0x60]),
    }
}

fn amount(rng: &mut Rng) -> Vec<u8> {
    let amount = match rng.below(8) {
        0 => 25,
        1 => 99_999_999,
        2 => 26,
        _ => rng.between(25, 50_000),
    };
    digits(amount as u64, 8)
}

fn paid_year(rng: &mut Rng, year: u64) -> Vec<u8> {
    digits(year - (rng.below(8) as u64), 4)
}

/// One fault or edge, anywhere in the record.
pub fn touch(rng: &mut Rng, world: &World, record: &mut Record) {
    match rng.below(22) {
        0 => match rng.below(3) {
            0 => put(record, 1, &world.other),
            1 => put_text(record, 1, rng.pick(&BAD_STATES)),
            _ => record[rng.below(2)] = rng.pick(&EDGES),
        },
        1 => put_text(record, 6, rng.pick(&BAD_SSN)),
        2 => match rng.below(2) {
            0 => put_text(record, 6, rng.pick(&GOOD_SSN)),
            _ => record[5 + rng.below(9)] = rng.pick(&EDGES),
        },
        3 => record[72] = byte(rng.pick(b"EXYN amzdK0-,UO")),
        4 => record[73] = byte(rng.pick(b"B anM0,-AN")),
        5 => put_text(record, 30, rng.pick(&BAD_NAMES)),
        6 => record[29 + rng.below(4)] = rng.pick(&EDGES),
        7 => record[49] = rng.pick(&EDGES),
        8 => put_text(
            record,
            65,
            rng.pick(&[
                "00000024", "00000025", "00000000", "00000001", "00000026", "99999999",
            ]),
        ),
        9 => match rng.below(3) {
            0 => blank(record, 65, 72),
            1 => put_text(
                record,
                65,
                rng.pick(&["      25", "25      ", "1,000.00", "-0000025"]),
            ),
            _ => record[64 + rng.below(8)] = rng.pick(&EDGES),
        },
        10 => put(record, 3, &world.local(rng, 10)),
        11 => blank(record, 15, if rng.percent(70) { 29 } else { 28 }),
        12 => match rng.below(2) {
            0 => put_text(record, 75, rng.pick(&BAD_STATES)),
            _ => record[74 + rng.below(5)] = rng.pick(&EDGES),
        },
        13 => {
            let year = world.year.saturating_sub(9) + rng.below(12) as u64;
            put(record, 80, &digits(year, 4));
        }
        14 => match rng.below(3) {
            0 => put_text(
                record,
                80,
                rng.pick(&["0000", "9999", "    ", "1999", "200 ", " 200"]),
            ),
            _ => record[79 + rng.below(4)] = rng.pick(&EDGES),
        },
        15 | 16 => touch_address(rng, record),
        17 => match rng.below(3) {
            0 => record[179 + rng.below(8)] = rng.pick(&EDGES),
            _ => put_text(record, 180, rng.pick(&DATES)),
        },
        18 | 19 => put(record, 188, &exclusions(rng, true)),
        20 => record[227 + rng.below(17)] = rng.pick(&EDGES),
        _ => record[rng.below(RECORD)] = rng.pick(&EDGES),
    }
}

/// Fills what the record's type doesn't read.
fn noise(rng: &mut Rng, world: &World, record: &mut Record) {
    rng.fill(&mut record[2..5]);
    rng.fill(&mut record[14..29]);
    rng.fill(&mut record[33..72]);
    rng.fill(&mut record[74..227]);
    if rng.percent(50) {
        put(record, 65, &amount(rng));
    }
    if rng.percent(50) {
        put(record, 3, &world.local(rng, 50));
    }
}

/// Writes the fields that a type reads.
pub fn fields(rng: &mut Rng, world: &World, kind: u8, known: &Known, record: &mut Record) {
    match kind {
        b'A' => {
            blank(record, 15, 29);
            blank(record, 84, 187);
            put(record, 3, &world.local(rng, 55));
            put(record, 30, &known.last);
            put(record, 50, &known.first);
            put(record, 65, &amount(rng));
            if rng.percent(50) {
                put_text(record, rng.between(15, 29), "K");
            }
            match rng.below(3) {
                0 => address(rng, record),
                1 => {
                    address(rng, record);
                    for _ in 0..rng.below(5) {
                        match rng.below(5) {
                            0 => blank(record, 84, 113),
                            1 => blank(record, 114, 143),
                            2 => blank(record, 144, 168),
                            3 => blank(record, 169, 170),
                            _ => blank(record, 171, 179),
                        }
                    }
                }
                _ => {}
            }
            put(record, 180, &date(rng));
            put(record, 188, &exclusions(rng, false));
        }
        b'B' => {
            put(record, 30, &known.last);
            put(record, 50, &known.first);
        }
        b'C' => {
            blank(record, 15, 29);
            put_text(record, rng.between(15, 29), "C");
        }
        b'L' => put(record, 3, &world.local(rng, 60)),
        b'M' => {
            put(record, 65, &amount(rng));
            if rng.percent(12) {
                put(record, 65, &[0xF0; 8]);
            }
        }
        b'R' => put(record, 188, &exclusions(rng, false)),
        b'S' => {
            put(record, 65, &digits(rng.number(), 8));
            put(record, 80, &paid_year(rng, world.year));
        }
        b'T' => {
            put(record, 75, &state(rng.pick(&STATES)));
            put(record, 77, &world.local(rng, 50));
        }
        b'Z' => address(rng, record),
        _ => {}
    }
}

/// A case to work on; fresh keys are used up by the first record that adds them.
fn target(rng: &mut Rng, world: &World) -> Known {
    let anew = |rng: &mut Rng, key| Known {
        key,
        last: last_name(rng),
        first: first_name(rng),
        live: false,
    };
    if rng.percent(3) {
        let key = rng.pick(&world.unsound);
        return anew(rng, key);
    }
    if !world.fresh.is_empty() && (world.known.is_empty() || rng.percent(20)) {
        let key = rng.pick(&world.fresh);
        return anew(rng, key);
    }
    if world.known.is_empty() {
        let key = sound_key(rng, world.state);
        return anew(rng, key);
    }
    for _ in 0..3 {
        let known = &world.known[rng.below(world.known.len())];
        if known.key[..2] == world.state && (known.live || rng.percent(40)) {
            return known.clone();
        }
    }
    world.known[rng.below(world.known.len())].clone()
}

/// Tells the world of a record meant to be accepted.
fn note(world: &mut World, kind: u8, zero: bool, after: Known) {
    if after.key[..2] != world.state || world.unsound.contains(&after.key) {
        return;
    }
    match world.known.iter_mut().find(|known| known.key == after.key) {
        Some(known) => match kind {
            b'A' => {
                *known = Known {
                    live: true,
                    ..after
                }
            }
            b'B' if known.live => *known = after,
            b'D' => known.live = false,
            b'M' if zero => known.live = false,
            _ => {}
        },
        None if kind == b'A' => {
            world.fresh.retain(|key| *key != after.key);
            world.known.push(Known {
                live: true,
                ..after
            });
        }
        None => {}
    }
}

/// One detail record. `care` of a hundred are meant to be free of faults.
pub fn detail(rng: &mut Rng, world: &mut World, care: usize) -> Record {
    let mut record = [SPACE; RECORD];
    if rng.once_in(400) {
        rng.fill(&mut record);
        return record;
    }
    if rng.percent(25) {
        noise(rng, world, &mut record);
    }
    let mut known = target(rng, world);
    let kind = match rng.below(100) {
        0..=79 if !known.live => b'A',
        _ => rng.pick(b"AAABBBCDLLMMRRSSTTZZ"),
    };
    put(&mut record, 1, &known.key[..2]);
    put(&mut record, 6, &known.key[2..11]);
    record[73] = known.key[11];
    record[72] = byte(kind);
    put(&mut record, 30, &known.last);
    if (kind == b'A' && rng.percent(30)) || (kind == b'B' && rng.percent(90)) {
        known.last = last_name(rng);
    }
    if (kind == b'A' && rng.percent(20)) || (kind == b'B' && rng.percent(70)) {
        known.first = first_name(rng);
    }
    if !b"AB".contains(&kind) {
        // Columns 34 and on have no say.
        if rng.percent(20) {
            rng.fill(&mut record[33..49]);
        }
        if rng.percent(6) {
            put(&mut record, 30, &last_name(rng));
        }
    }
    fields(rng, world, kind, &known, &mut record);
    if rng.percent(20) {
        record[244] = rng.pick(&EDGES);
    }
    if rng.percent(care) {
        let zero = record[64..72] == [0xF0; 8];
        note(world, kind, zero, known);
    } else {
        damage(rng, world, &mut record);
    }
    record
}

/// One fault, a few, or many at once.
fn damage(rng: &mut Rng, world: &World, record: &mut Record) {
    let faults = match rng.below(10) {
        0 => rng.between(8, 40),
        1 | 2 => rng.between(2, 5),
        _ => 1,
    };
    for _ in 0..faults {
        touch(rng, world, record);
    }
    if rng.percent(10) {
        for _ in 0..rng.between(1, 6) {
            record[rng.below(RECORD)] = rng.below(256) as u8;
        }
    }
}

/// TANF count, Non-TANF count, TANF amount, Non-TANF amount of the details.
pub fn totals(details: &[Record]) -> [u64; 4] {
    let mut totals = [0; 4];
    for record in details {
        let place = match record[73] {
            0xC1 => 0,
            0xD5 => 1,
            _ => continue,
        };
        totals[place] += 1;
        if record[72] == 0xC1 || record[72] == 0xD4 {
            totals[place + 2] += number(&record[64..72]).unwrap_or(0);
        }
    }
    totals
}

/// Details with their control record.
pub fn batch(state: [u8; 2], details: &[Record]) -> Vec<u8> {
    let mut batch = details.concat();
    batch.extend_from_slice(&control(state, totals(details)));
    batch
}

/// A control record; a total too wide for its field loses its higher digits.
pub fn control(state: [u8; 2], totals: [u64; 4]) -> Record {
    let mut record = [SPACE; RECORD];
    put(&mut record, 1, &state);
    put_text(&mut record, 3, "CTL");
    put(&mut record, 6, &digits(totals[0], 9));
    put(&mut record, 15, &digits(totals[1], 9));
    put(&mut record, 24, &digits(totals[2], 11));
    put(&mut record, 35, &digits(totals[3], 11));
    record
}
