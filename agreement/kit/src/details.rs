//! Details on both sides of the boundary of each rule of a record: every error and warning, and what each type changes.

use generator::crowd;
use generator::records::{Record, BAD_NAMES, RECORD};
use generator::rng::Rng;
use generator::text::{blank, byte, digits, put, put_text, text, EDGES, SPACE, STATES, WORDS};
use generator::world::{first_name, last_name, Known, World, BAD_SSN, GOOD_SSN};

use crate::scene::{anew, any_record, own, record};

/// Bytes next to those that are letters, digits, hyphens, commas and spaces, and these.
const NEAR: [u8; 28] = [
    0x00, 0x20, 0x3F, 0x40, 0x41, 0x5F, 0x60, 0x61, 0x6A, 0x6B, 0x6C, 0x81, 0x89, 0xC0, 0xC1, 0xC9,
    0xCA, 0xD0, 0xD1, 0xD9, 0xDA, 0xE1, 0xE2, 0xE9, 0xEA, 0xEF, 0xF9, 0xFA,
];
const OTHER_STATES: [&str; 14] = [
    "  ", "ZZ", "AA", "KA", "OO", "A ", " K", "WZ", "00", "GY", "PQ", "AB", "UV", "XX",
];
const NAMES: [&str; 12] = [
    "LI", "O-NE", "-A", "A-", "A", "Z-Z", "SMIT", "I--J", "--A", "S", "R-", "JRSZ",
];

pub struct Rule {
    pub name: &'static str,
    /// The code at stake, 0 where there is none.
    pub code: u32,
    pub make: fn(&mut Rng, &World) -> Vec<Record>,
}

const fn rule(name: &'static str, code: u32, make: fn(&mut Rng, &World) -> Vec<Record>) -> Rule {
    Rule { name, code, make }
}

pub const RULES: &[Rule] = &[
    rule("01: states", 1, states),
    rule("02: SSNs", 2, ssns),
    rule("03: types", 3, types),
    rule("04: case types", 4, case_types),
    rule("05: last names", 5, names),
    rule("06: first names", 6, first_names),
    rule("07: amounts that are digits or not", 7, amounts),
    rule("08: amounts around 25", 8, small_amounts),
    rule("09: rows live, deleted or missing", 9, rows_missing),
    rule("10: local codes of L", 10, local_codes),
    rule("11: case IDs", 11, case_ids),
    rule("12: transfer states", 12, transfers),
    rule("13: payment years", 13, years),
    rule("14: addresses of Z", 14, addresses),
    rule("14: states and ZIPs of A", 14, parts_of_address),
    rule("15: dates", 15, dates),
    rule("16: exclusions", 16, exclusions),
    rule("17: names stored and given", 17, names_given),
    rule("18: fillers", 18, fillers),
    rule("51: local codes of A", 51, local_codes_of_a),
    rule("52: names of A", 52, names_of_a),
    rule("several errors in one record", 0, many_errors),
    rule("A on a live row", 0, recertified),
    rule("A on a deleted row", 0, revived),
    rule("A without a row", 0, fresh),
    rule("every type on a live row", 0, every_type),
    rule("deleted and brought back in one batch", 0, deleted_and_back),
    rule("two case types and two states of a number", 0, two_keys),
    rule("many details under few keys", 0, crowded),
    rule("new rows before, between and behind", 0, new_rows),
];

fn one(
    rng: &mut Rng,
    world: &World,
    kinds: &[u8],
    change: impl FnOnce(&mut Rng, &mut Record),
) -> Vec<Record> {
    let kind = rng.pick(kinds);
    let known = match kind == b'A' && rng.percent(50) {
        true => anew(rng, world),
        false => own(rng, world),
    };
    let mut record = record(rng, world, kind, &known);
    change(rng, &mut record);
    let mut details = vec![record];
    if rng.percent(25) {
        details.push(any_record(rng, world));
    }
    if rng.percent(10) {
        details.insert(0, any_record(rng, world));
    }
    details
}

/// Any type, those given more often.
fn mostly(rng: &mut Rng, kinds: &[u8]) -> [u8; 1] {
    match rng.percent(85) {
        true => [rng.pick(kinds)],
        false => [rng.pick(b"ABCDLMRSTZ")],
    }
}

fn states(rng: &mut Rng, world: &World) -> Vec<Record> {
    one(rng, world, b"AAABCDLMRSTZ", |rng, record| {
        match rng.below(5) {
            0 => put(record, 1, &world.other),
            1 => put_text(record, 1, rng.pick(&OTHER_STATES)),
            2 => put_text(record, 1, rng.pick(&STATES)),
            3 => record[rng.below(2)] = rng.pick(&NEAR),
            _ => {}
        }
    })
}

fn ssns(rng: &mut Rng, world: &World) -> Vec<Record> {
    one(rng, world, b"AAAABCDLMRSTZ", |rng, record| {
        match rng.below(6) {
            0 | 1 => put_text(record, 6, rng.pick(&BAD_SSN)),
            2 => put_text(record, 6, rng.pick(&GOOD_SSN)),
            3 => record[5 + rng.below(9)] = rng.pick(&NEAR),
            4 => {
                let area = rng.pick(&[0, 1, 665, 666, 667, 899, 900, 901, 999]);
                let group = rng.pick(&[0, 1, 99]);
                let serial = rng.pick(&[0, 1, 9999]);
                put(
                    record,
                    6,
                    &digits(area * 1_000_000 + group * 10_000 + serial, 9),
                );
            }
            _ => {}
        }
    })
}

fn types(rng: &mut Rng, world: &World) -> Vec<Record> {
    one(rng, world, b"ABCDLMRSTZ", |rng, record| {
        match rng.below(3) {
            0 => record[72] = byte(rng.pick(b"EFGHIJKNOPQUVWXY 0-")),
            1 => record[72] = rng.pick(&NEAR),
            _ => {}
        }
        // what isn't judged with 03
        if rng.percent(40) {
            record[49] = SPACE;
            blank(record, 65, 72);
            put_text(record, 188, "NONE");
        }
    })
}

fn case_types(rng: &mut Rng, world: &World) -> Vec<Record> {
    one(rng, world, b"AABCDLMMRSTZ", |rng, record| {
        match rng.below(4) {
            0 => record[73] = byte(rng.pick(b" BCMZ0-an")),
            1 => record[73] = rng.pick(&NEAR),
            2 => record[73] ^= 0xC1 ^ 0xD5,
            _ => {}
        }
    })
}

/// Columns 30 to 33, and what stands behind them.
fn put_name(rng: &mut Rng, record: &mut Record) {
    match rng.below(4) {
        0 => put_text(record, 30, &format!("{:<4}", rng.pick(&NAMES))),
        1 => put_text(record, 30, rng.pick(&BAD_NAMES)),
        2 => record[29 + rng.below(4)] = rng.pick(&NEAR),
        _ => {
            put_text(record, 30, "A   ");
            record[29 + rng.below(4)] = rng.pick(&NEAR);
        }
    }
    if rng.percent(20) {
        record[33] = rng.pick(&NEAR);
    }
}

fn names(rng: &mut Rng, world: &World) -> Vec<Record> {
    one(rng, world, b"AAABBBCDLMRSTZ", put_name)
}

fn first_names(rng: &mut Rng, world: &World) -> Vec<Record> {
    let kinds = mostly(rng, b"AB");
    one(rng, world, &kinds, |rng, record| {
        record[49] = rng.pick(&NEAR)
    })
}

fn amounts(rng: &mut Rng, world: &World) -> Vec<Record> {
    let kinds = mostly(rng, b"AMS");
    one(rng, world, &kinds, |rng, record| match rng.below(4) {
        0 => record[64 + rng.below(8)] = rng.pick(&NEAR),
        1 => record[rng.pick(&[64, 71])] = rng.pick(&[0xEF, 0xFA, 0x40, 0xC1]),
        2 => put_text(
            record,
            65,
            rng.pick(&["        ", "      25", "25      ", "-0000025"]),
        ),
        _ => put_text(record, 65, rng.pick(&["00000000", "99999999", "00000001"])),
    })
}

fn small_amounts(rng: &mut Rng, world: &World) -> Vec<Record> {
    let kinds = mostly(rng, b"A");
    one(rng, world, &kinds, |rng, record| {
        let amount = rng.pick(&[0, 1, 23, 24, 24, 25, 25, 26, 99_999_999]);
        put(record, 65, &digits(amount, 8));
    })
}

fn rows_missing(rng: &mut Rng, world: &World) -> Vec<Record> {
    let deleted: Vec<&Known> = world.known.iter().filter(|known| !known.live).collect();
    let known = match rng.below(3) {
        0 => anew(rng, world),
        1 if !deleted.is_empty() => deleted[rng.below(deleted.len())].clone(),
        _ => own(rng, world),
    };
    let mut known = known;
    known.key[..2].copy_from_slice(&world.state);
    let kind = rng.pick(b"BCDLMRSTZA");
    let mut details = vec![record(rng, world, kind, &known)];
    if rng.percent(30) {
        known.last = last_name(rng);
        details.push(record(rng, world, rng.clone().pick(b"MLB"), &known));
    }
    details
}

/// A local code on either side of being known.
fn local_code(rng: &mut Rng, world: &World) -> [u8; 3] {
    if rng.percent(50) && !world.list.is_empty() {
        let mut code = rng.pick(&world.list);
        if rng.percent(60) {
            let at = rng.below(3);
            code[at] = rng.pick(&[SPACE, 0xF0, 0xF9, code[at] ^ 1, 0xFA]);
        }
        return code;
    }
    world.local(rng, 0)
}

fn local_codes(rng: &mut Rng, world: &World) -> Vec<Record> {
    let kinds = mostly(rng, b"L");
    one(rng, world, &kinds, |rng, record| {
        put(record, 3, &local_code(rng, world));
    })
}

fn local_codes_of_a(rng: &mut Rng, world: &World) -> Vec<Record> {
    one(rng, world, b"A", |rng, record| {
        put(record, 3, &local_code(rng, world));
        simple_a(record);
        if rng.percent(10) {
            record[227 + rng.below(17)] = rng.pick(&NEAR);
        }
    })
}

/// Leaves an A without what may be wrong in it.
fn simple_a(record: &mut Record) {
    put_text(record, 65, "00000100");
    blank(record, 84, 227);
}

fn case_ids(rng: &mut Rng, world: &World) -> Vec<Record> {
    let kinds = mostly(rng, b"C");
    one(rng, world, &kinds, |rng, record| {
        blank(record, 15, 29);
        match rng.below(4) {
            0 => {}
            1 => record[rng.pick(&[13, 29])] = byte(b'X'),
            2 => record[rng.pick(&[14, 28])] = rng.pick(&NEAR),
            _ => record[14 + rng.below(15)] = rng.pick(&NEAR),
        }
    })
}

fn transfers(rng: &mut Rng, world: &World) -> Vec<Record> {
    let kinds = mostly(rng, b"T");
    one(rng, world, &kinds, |rng, record| match rng.below(5) {
        0 => put_text(record, 75, rng.pick(&OTHER_STATES)),
        1 => put(record, 75, &world.state),
        2 => record[74 + rng.below(2)] = rng.pick(&NEAR),
        3 => put_text(record, 77, rng.pick(&["   ", "  1", "1  ", "000", "ABC"])),
        _ => put_text(record, 75, rng.pick(&STATES)),
    })
}

fn years(rng: &mut Rng, world: &World) -> Vec<Record> {
    let kinds = mostly(rng, b"S");
    one(rng, world, &kinds, |rng, record| match rng.below(4) {
        0 => record[79 + rng.below(4)] = rng.pick(&NEAR),
        1 => put_text(
            record,
            80,
            rng.pick(&["0000", "9999", "    ", "200 ", " 200"]),
        ),
        _ => {
            let back = rng.pick(&[0, 1, 6, 7, 7, 8, 8, 9]);
            let year = world.year - back + u64::from(rng.percent(25) && back == 0);
            put(record, 80, &digits(year, 4));
        }
    })
}

fn addresses(rng: &mut Rng, world: &World) -> Vec<Record> {
    let kinds = mostly(rng, b"Z");
    one(rng, world, &kinds, change_address)
}

fn change_address(rng: &mut Rng, record: &mut Record) {
    match rng.below(10) {
        0 => blank(record, 84, 113),
        1 => {
            blank(record, 84, 143);
            record[rng.pick(&[82, 83, 112, 113, 142, 143])] = byte(b'X');
        }
        2 => blank(record, 84, 143),
        3 => {
            blank(record, 144, 168);
            record[rng.pick(&[143, 167, 168])] = byte(b'Y');
        }
        4 => blank(record, 144, 168),
        5 => put_text(record, 169, rng.pick(&OTHER_STATES)),
        6 => put_text(record, 169, rng.pick(&STATES)),
        _ => put_zip(rng, record),
    }
}

fn put_zip(rng: &mut Rng, record: &mut Record) {
    let zips = [
        "123456789",
        "12345    ",
        "1234 6789",
        "12345   9",
        "12345 789",
        "1234     ",
        "123456   ",
        "         ",
        "    56789",
        "12345678 ",
    ];
    put_text(record, 171, rng.pick(&zips));
    if rng.percent(30) {
        record[170 + rng.below(9)] = rng.pick(&NEAR);
    }
}

fn parts_of_address(rng: &mut Rng, world: &World) -> Vec<Record> {
    one(rng, world, b"A", |rng, record| {
        simple_a(record);
        for _ in 0..rng.between(1, 2) {
            match rng.below(4) {
                0 => put_text(record, 169, rng.pick(&OTHER_STATES)),
                1 => put_text(record, 169, rng.pick(&STATES)),
                2 => put_zip(rng, record),
                _ => put_text(record, rng.pick(&[84, 113, 114, 143, 144, 168]), "X"),
            }
        }
    })
}

/// Dates around the ends of months, years and the calendar.
pub fn date(rng: &mut Rng) -> Vec<u8> {
    let year = rng.pick(&[
        1899, 1900, 1901, 1904, 1999, 2000, 2007, 2008, 2100, 2400, 9999, 0,
    ]);
    let month = rng.pick(&[0, 1, 2, 2, 2, 3, 4, 5, 6, 7, 8, 9, 10, 11, 12, 13]);
    let day = rng.pick(&[0, 1, 28, 29, 29, 30, 30, 31, 31, 32]);
    let mut date = digits(year * 10_000 + month * 100 + day, 8);
    if rng.percent(12) {
        date[rng.below(8)] = rng.pick(&NEAR);
    }
    if rng.percent(5) {
        date.fill(SPACE);
    }
    date
}

fn dates(rng: &mut Rng, world: &World) -> Vec<Record> {
    let kinds = mostly(rng, b"A");
    one(rng, world, &kinds, |rng, record| {
        put(record, 180, &date(rng))
    })
}

fn exclusions(rng: &mut Rng, world: &World) -> Vec<Record> {
    let kinds = mostly(rng, b"RRA");
    one(rng, world, &kinds, |rng, record| {
        blank(record, 188, 227);
        let bad = ["RETPAS", "ADMX", "AD", "TAXTAX", "0", "FIM", "DC", "X"];
        let mut at = 188 + rng.pick(&[0, 0, 0, 1, 2]);
        for _ in 0..rng.below(6) {
            let word = match rng.percent(8) {
                true => rng.pick(&bad),
                false => rng.pick(&WORDS),
            };
            if at + word.len() > 228 {
                break;
            }
            put_text(record, at, word);
            at += word.len();
            for _ in 0..rng.pick(&[1, 1, 1, 2, 3]) {
                if at < 228 {
                    record[at - 1] = rng.pick(&[0x40, 0x6B]);
                    at += 1;
                }
            }
        }
        match rng.below(12) {
            0 => put_text(record, 225, rng.pick(&WORDS)),
            1 => put_text(record, 226, "AD"),
            2 => record[187 + rng.below(40)] = rng.pick(&NEAR),
            _ => {}
        }
    })
}

/// A row's name, names of Bs before and behind, right and faulty ones, and records that carry them.
fn names_given(rng: &mut Rng, world: &World) -> Vec<Record> {
    let stored = own(rng, world);
    let given: [[u8; 20]; 2] = std::array::from_fn(|_| last_name(rng));
    let mut details = Vec::new();
    for _ in 0..rng.between(1, 3) {
        let mut known = stored.clone();
        known.last = match rng.below(5) {
            0 => stored.last,
            1 | 2 => given[0],
            3 => given[1],
            _ => {
                let mut name = [SPACE; 20];
                put_text(&mut name, 1, rng.pick(&["-", "--", "-A"]));
                name
            }
        };
        known.first = first_name(rng);
        let kind = rng.pick(b"BBBMLCTDRZS");
        let mut detail = record(rng, world, kind, &known);
        if kind == b'B' && rng.percent(35) {
            match rng.below(4) {
                0 => detail[49] = rng.pick(&NEAR),
                1 => detail[227 + rng.below(17)] = rng.pick(&NEAR),
                2 => put_name(rng, &mut detail),
                _ => detail[73] ^= 0xC1 ^ 0xD5,
            }
        } else if rng.percent(10) {
            detail[29 + rng.below(5)] = rng.pick(&NEAR);
        }
        details.push(detail);
    }
    details
}

fn fillers(rng: &mut Rng, world: &World) -> Vec<Record> {
    one(rng, world, b"ABCDLMRSTZ", |rng, record| {
        match rng.below(4) {
            0 => record[rng.pick(&[226, 227, 243, 244])] = rng.pick(&NEAR),
            1 => record[227 + rng.below(17)] = rng.pick(&NEAR),
            2 => record[244] = rng.pick(&NEAR),
            _ => record[243] = rng.pick(&[0x00, 0x41, 0xF0]),
        }
    })
}

fn names_of_a(rng: &mut Rng, world: &World) -> Vec<Record> {
    let known = own(rng, world);
    let mut detail = record(rng, world, b'A', &known);
    simple_a(&mut detail);
    match rng.below(5) {
        0 => {}
        1 => detail[rng.between(33, 48)] ^= 0x01,
        2 => detail[rng.between(50, 63)] ^= 0x01,
        3 => detail[rng.pick(&[48, 63])] = byte(b'Q'),
        _ => put(&mut detail, 30, &last_name(rng)),
    }
    let mut details = vec![detail];
    if rng.percent(30) {
        details.insert(0, record(rng, world, b'D', &known));
    }
    details
}

fn many_errors(rng: &mut Rng, world: &World) -> Vec<Record> {
    one(rng, world, b"AAABCDLMRSTZ", |rng, record| {
        for _ in 0..rng.between(3, 30) {
            let at = rng.below(RECORD);
            record[at] = rng.pick(&EDGES);
        }
        if rng.percent(70) {
            record[72] = byte(rng.pick(b"AAASZ"));
        }
    })
}

fn recertified(rng: &mut Rng, world: &World) -> Vec<Record> {
    let mut known = own(rng, world);
    if rng.percent(30) {
        known.last = last_name(rng);
    }
    let mut detail = record(rng, world, b'A', &known);
    blank(&mut detail, 84, 187);
    put_text(&mut detail, 65, "00000100");
    match rng.below(4) {
        0 => {}
        1 => put_text(&mut detail, rng.pick(&[84, 114, 143, 144, 168]), "X"),
        2 => put_text(&mut detail, 169, "OH43004    "),
        _ => put_text(&mut detail, 171, "43004    "),
    }
    if rng.percent(40) {
        put_text(&mut detail, 180, "20070131");
    }
    vec![detail]
}

fn revived(rng: &mut Rng, world: &World) -> Vec<Record> {
    let mut known = own(rng, world);
    let deletion = match rng.percent(50) {
        true => record(rng, world, b'D', &known),
        false => {
            let mut zero = record(rng, world, b'M', &known);
            put(&mut zero, 65, &[0xF0; 8]);
            zero
        }
    };
    known.last = last_name(rng);
    let mut back = record(rng, world, b'A', &known);
    simple_a(&mut back);
    vec![deletion, back]
}

fn fresh(rng: &mut Rng, world: &World) -> Vec<Record> {
    let known = anew(rng, world);
    let mut details = vec![record(rng, world, b'A', &known)];
    if rng.percent(50) {
        let kind = rng.pick(b"BCDLMRSTZ");
        details.push(record(rng, world, kind, &known));
    }
    details
}

fn every_type(rng: &mut Rng, world: &World) -> Vec<Record> {
    (0..rng.between(1, 3))
        .map(|_| {
            let known = own(rng, world);
            let kind = rng.pick(b"BCDLMRSTZ");
            record(rng, world, kind, &known)
        })
        .collect()
}

fn deleted_and_back(rng: &mut Rng, world: &World) -> Vec<Record> {
    let known = own(rng, world);
    let mut details: Vec<Record> = Vec::new();
    for kind in [rng.pick(b"DM"), rng.pick(b"LMCB"), b'A'] {
        let mut detail = record(rng, world, kind, &known);
        if kind == b'M' && rng.percent(60) {
            put(&mut detail, 65, &[0xF0; 8]);
        }
        details.push(detail);
    }
    if rng.percent(40) {
        details.push(record(rng, world, b'D', &known));
    }
    details
}

fn two_keys(rng: &mut Rng, world: &World) -> Vec<Record> {
    let known = own(rng, world);
    let mut other = known.clone();
    other.key[11] ^= 0xC1 ^ 0xD5;
    let mut details = vec![
        record(rng, world, b'M', &known),
        record(rng, world, b'A', &other),
        record(rng, world, b'M', &other),
    ];
    if rng.percent(30) {
        details[1][0..2].copy_from_slice(&world.other);
    }
    rng.shuffle(&mut details);
    details
}

fn crowded(rng: &mut Rng, world: &World) -> Vec<Record> {
    let count = rng.pick(&[4, 8, 15, 30]);
    crowd::details(rng, world, count)
}

fn new_rows(rng: &mut Rng, world: &World) -> Vec<Record> {
    let mut details = Vec::new();
    for key in &world.fresh {
        let mut known = anew(rng, world);
        known.key[2..].copy_from_slice(&key[2..]);
        if rng.percent(70) {
            details.push(record(rng, world, b'A', &known));
        }
        if rng.percent(15) {
            details.push(record(rng, world, b'A', &known));
        }
    }
    for ssn in ["001010001", "999999999"] {
        let mut known = anew(rng, world);
        known.key[2..11].copy_from_slice(&text(ssn));
        if rng.percent(40) {
            details.push(record(rng, world, b'A', &known));
        }
    }
    rng.shuffle(&mut details);
    details
}
