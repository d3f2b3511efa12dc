//! Every rule and every refusal aimed at: a case on one side of its boundary or the other; every pair of refusals; and cases of
//! the calls that no rule of a record names.

use generator::posting::{self, Line};
use generator::records::RECORD;
use generator::rng::Rng;
use generator::rows::ROW;
use generator::text::{digits, number, put, put_text, EDGES, SPACE};
use generator::world::World;

use crate::breaks::{break_by, near_date, near_room, touch_contact, wide_amounts};
use crate::calls::CALLS;
use crate::case::Case;
use crate::details::RULES;
use crate::journals::other_numbers;
use crate::room::{new_rows, row_count};
use crate::scene::{self, apply, base, line, own, post, world};
use crate::whole::whole_field;

/// What a case is aimed at.
#[derive(Clone, Copy, Debug, PartialEq, Eq, PartialOrd, Ord)]
pub enum Target {
    /// A rule of a record, by its place in `RULES`.
    Rule(usize),
    /// A refusal.
    Refusal(u64),
    /// Two refusals that hold together.
    Pair(u64, u64),
    /// A situation, by its place in `SITUATIONS`.
    Situation(usize),
}

pub struct Situation {
    pub call: &'static str,
    pub name: &'static str,
    make: fn(&mut Rng, &mut Case),
}

const fn of(call: &'static str, name: &'static str, make: fn(&mut Rng, &mut Case)) -> Situation {
    Situation { call, name, make }
}

const WHOLE: &str = "a field of one character throughout";

pub const SITUATIONS: &[Situation] = &[
    of("apply", "rows on both sides of being sound", near_row),
    of("apply", "years around the first and the last", near_year),
    of("apply", "totals of neither case type and of S", odd_totals),
    of("apply", "a last record that is a detail", last_detail),
    of("apply", "room for A records of any kind", near_room),
    of(
        "apply_journaled",
        "rows on both sides of being sound",
        near_row,
    ),
    of(
        "apply_journaled",
        "counts and places of two groups",
        two_groups,
    ),
    of("take_back", "rows on both sides of being sound", near_row),
    of("take_back", "a journal changed by a bit", flip_bit),
    of(
        "take_back",
        "a journal of another master or with numbers too large",
        other_numbers,
    ),
    of(
        "take_back",
        "an old row on both sides of being sound",
        near_old_row,
    ),
    of("totals", "a last record of any kind", any_last),
    of("totals", "amounts above eleven digits", wide_totals),
    of("merge", "amounts around eleven digits", wide_amounts),
    of("merge", "amounts and counts of many details", many_details),
    of("find", "rows on both sides of being sound", near_row),
    of("find", "keys around the rows'", near_key),
    of("find_many", "rows on both sides of being sound", near_row),
    of("find_many", "keys on both sides of being sound", near_keys),
    of("reconcile", "rows on both sides of being sound", near_row),
    of("reconcile", "dates around the calendar's", near_date),
    of("reconcile", "every set of exclusions", every_set),
    of("pages", "rows on both sides of being sound", near_row),
    of("pages", "every set of exclusions", every_set),
    of("add_cents", "rows on both sides of being sound", near_row),
    of(
        "add_cents",
        "columns 197 to 200 on both sides of being blank",
        near_blank,
    ),
    of("post", "rows on both sides of being sound", near_row),
    of(
        "post",
        "amounts around the balance and the limit",
        near_balance,
    ),
    of("post", "amounts that are good and bad", near_amount),
    of(
        "post",
        "both amounts, none, and rows that are gone",
        other_lines,
    ),
    of("to_ebcdic", "every byte", any_byte),
    of("to_ascii", "every byte", any_byte),
    of(
        "contacts_update",
        "records on both sides of being faulty",
        near_contact,
    ),
    of(
        "contacts_update",
        "a table's record on both sides of being faulty",
        near_table,
    ),
    of("contacts_update", "keys that come again", same_contacts),
    of("contacts_codes", "codes of several states", |_, _| {}),
    of(
        "contacts_codes",
        "a table's record on both sides of being faulty",
        near_table,
    ),
    of(
        "records_to",
        "rows on both sides of being sound",
        near_wanted,
    ),
    of("records_to", "every set of exclusions", every_wanted_set),
    of("records_to", "cents", wanted_cents),
    of("apply", WHOLE, whole_field),
    of("apply_journaled", WHOLE, whole_field),
    of("take_back", WHOLE, whole_field),
    of("merge", WHOLE, whole_field),
    of("find", WHOLE, whole_field),
    of("find_many", WHOLE, whole_field),
    of("reconcile", WHOLE, whole_field),
    of("pages", WHOLE, whole_field),
    of("add_cents", WHOLE, whole_field),
    of("post", WHOLE, whole_field),
    of("contacts_update", WHOLE, whole_field),
    of("contacts_codes", WHOLE, whole_field),
    of("records_to", WHOLE, whole_field),
];

/// One aim: a call with its target.
#[derive(Clone, Copy, Debug, PartialEq, Eq, PartialOrd, Ord)]
pub struct Aim {
    pub call: usize,
    pub target: Target,
}

/// Pairs that can't hold together in the order given, or whose later one isn't told by breaking both.
fn is_pair(call: &str, first: u64, second: u64) -> bool {
    // a key that isn't sound has no row
    !(call == "find" && (first, second) == (14, 15))
}

/// All aims of a call.
pub fn of_call(call: usize) -> Vec<Aim> {
    let spec = &CALLS[call];
    let mut targets: Vec<Target> = Vec::new();
    if spec.name == "apply" || spec.name == "apply_journaled" {
        targets.extend((0..RULES.len()).map(Target::Rule));
    }
    let situations = SITUATIONS.iter().enumerate();
    let own = situations.filter(|(_, one)| one.call == spec.name);
    targets.extend(own.map(|(at, _)| Target::Situation(at)));
    targets.extend(spec.refusals.iter().map(|&number| Target::Refusal(number)));
    for (at, &first) in spec.refusals.iter().enumerate() {
        for &second in &spec.refusals[at + 1..] {
            if is_pair(spec.name, first, second) {
                targets.push(Target::Pair(first, second));
            }
        }
    }
    targets
        .into_iter()
        .map(|target| Aim { call, target })
        .collect()
}

/// A case of an aim.
pub fn make(rng: &mut Rng, aim: &Aim) -> Case {
    let call = CALLS[aim.call].name;
    match aim.target {
        Target::Rule(rule) => {
            let world = world(rng);
            let details = (RULES[rule].make)(rng, &world);
            apply(rng, &world, &details, call == "apply_journaled")
        }
        Target::Situation(at) => {
            let mut case = base(rng, call);
            (SITUATIONS[at].make)(rng, &mut case);
            case
        }
        Target::Refusal(number) => {
            let mut case = roomy(rng, call, &[number]);
            if rng.percent(75) {
                break_by(rng, &mut case, number);
            }
            case
        }
        Target::Pair(first, second) => {
            let mut case = roomy(rng, call, &[first, second]);
            break_by(rng, &mut case, second);
            break_by(rng, &mut case, first);
            case
        }
    }
}

/// A case that has what the refusals need to hold: an A for 9, a detail for 10, a line for 24, a key for 28.
fn roomy(rng: &mut Rng, call: &str, refusals: &[u64]) -> Case {
    for _ in 0..200 {
        let case = base(rng, call);
        let details = |name: &str| case.bytes(name).len() / RECORD > 1;
        let suits = |&number: &u64| match number {
            9 => new_rows(&case) > 0,
            10 => details("batch"),
            24 => case.bytes("file").len() > 240,
            28 => case.bytes("keys").len() >= 12,
            17 => !case.bytes("in").is_empty(),
            19 if case.has("file") => !case.bytes("file").is_empty(),
            19 => case.bytes("out").len() >= 3,
            31 => case.bytes("out").len() >= 3 * 132,
            _ => true,
        };
        if refusals.iter().all(suits) {
            return case;
        }
    }
    base(rng, call)
}

/// A field of a row at an edge of what is sound.
fn touch_row(rng: &mut Rng, row: &mut [u8]) {
    let near = [
        0x40, 0x41, 0x60, 0xC1, 0xC9, 0xCA, 0xD1, 0xE1, 0xE2, 0xEF, 0xF0, 0xF9, 0xFA, 0x81,
    ];
    match rng.below(16) {
        0 => put_text(
            row,
            1,
            rng.pick(&["GU", "PR", "DC", "WY", "AK", "ZZ", "  ", "AB"]),
        ),
        1 => put_text(row, 3, rng.pick(&generator::world::BAD_SSN)),
        2 => put_text(row, 3, rng.pick(&generator::world::GOOD_SSN)),
        3 => row[11] = rng.pick(&[0xC1, 0xD5, 0x40, 0xC2]),
        4 => row[rng.pick(&[12, 13, 14, 15])] = rng.pick(&near),
        5 => put_text(
            row,
            31,
            rng.pick(&["LI  ", "O-NE", "-A  ", "--  ", "O NE", "    ", "A  -"]),
        ),
        6 => row[30 + rng.below(5)] = rng.pick(&near),
        7 => row[64 + rng.below(10)] = rng.pick(&near),
        8 => row[rng.pick(&[73, 77, 78, 81, 82, 89, 90])] = rng.pick(&near),
        9 => row[194] = rng.below(256) as u8,
        10 => row[195] = rng.pick(&[0x40, 0xC4, 0x00, 0xC5]),
        11 => row[196 + rng.below(4)] = rng.pick(&near),
        12 => {
            put(row, 66, &[0xF0; 8]);
            put_text(
                row,
                196,
                rng.pick(&[" 00", "D00", " 01", "D01", " 10", "D10"]),
            );
        }
        13 => {
            put_text(row, 66, rng.pick(&["00000001", "10000000", "00000000"]));
            put_text(row, 196, rng.pick(&[" 00", "D00", " 99", "D99"]));
        }
        14 => put_text(
            row,
            197,
            rng.pick(&["    ", "00  ", "0   ", "00 0", "000 ", "99  "]),
        ),
        _ => row[rng.below(ROW)] = rng.pick(&EDGES),
    }
}

fn near_row(rng: &mut Rng, case: &mut Case) {
    let rows = row_count(case);
    if rows == 0 {
        return;
    }
    if rows > 1 && rng.percent(15) {
        let at = rng.between(1, rows - 1) * ROW;
        let before = case.bytes("master")[at - ROW..at].to_vec();
        let row = &mut case.bytes_mut("master")[at..at + 12];
        row.copy_from_slice(&before[..12]);
        row[11] = rng.pick(&[0xC1, 0xD5]);
        return;
    }
    let at = rng.below(rows) * ROW;
    touch_row(rng, &mut case.bytes_mut("master")[at..at + ROW]);
}

fn near_blank(rng: &mut Rng, case: &mut Case) {
    let rows = row_count(case);
    if rows > 0 {
        let at = rng.below(rows) * ROW + 195 + rng.below(5);
        case.bytes_mut("master")[at] = rng.pick(&[0x40, 0x40, 0x00, 0xF0, 0xC4]);
    }
}

fn near_wanted(rng: &mut Rng, case: &mut Case) {
    let name = rng.pick(&["row", "wanted"]);
    touch_row(rng, case.bytes_mut(name));
}

fn near_year(rng: &mut Rng, case: &mut Case) {
    case.set_count(
        "year",
        rng.pick(&[1899, 1900, 1901, 1906, 1907, 9998, 9999, 10_000]),
    );
}

/// Records whose case type or type counts in no total, with the totals left or made right.
fn odd_totals(rng: &mut Rng, case: &mut Case) {
    let batch = case.bytes_mut("batch");
    let records = batch.len() / RECORD;
    for at in 0..records - 1 {
        let record = &mut batch[at * RECORD..(at + 1) * RECORD];
        match rng.below(4) {
            0 => record[73] = rng.pick(&[0x40, 0xC2, 0xC1, 0xD5]),
            1 => record[72] = rng.pick(&[0xE2, 0xD4, 0xC4, 0xC1]),
            2 => record[64 + rng.below(8)] = rng.pick(&[0x40, 0xFA, 0xF5]),
            _ => {}
        }
    }
    if rng.percent(85) {
        crate::shrink::mend_totals(batch);
    }
}

/// A control record in the middle, a detail at the end.
fn last_detail(rng: &mut Rng, case: &mut Case) {
    let batch = case.bytes_mut("batch");
    let records = batch.len() / RECORD;
    if records > 1 && rng.percent(50) {
        batch[(records - 2) * RECORD..].rotate_left(RECORD);
    } else {
        batch[(records - 1) * RECORD + rng.below(60)] = rng.pick(&EDGES);
    }
}

/// A master of about 128 rows, changed at its end.
fn two_groups(rng: &mut Rng, case: &mut Case) {
    let mut world = World::new(rng, 140, 3);
    world.known.truncate(rng.between(126, 130));
    let mut details = Vec::new();
    for known in world.known.iter().rev().take(3) {
        let mut known = known.clone();
        known.key[..2].copy_from_slice(&world.state);
        details.push(scene::record(
            rng,
            &world,
            rng.clone().pick(b"MMCA"),
            &known,
        ));
    }
    details.push(scene::record(
        rng,
        &world,
        b'A',
        &scene::anew(&mut rng.clone(), &world),
    ));
    *case = apply(rng, &world, &details, true);
}

fn flip_bit(rng: &mut Rng, case: &mut Case) {
    let journal = case.bytes_mut("journal");
    let most = if rng.percent(50) { 4 } else { usize::MAX };
    let at = rng.below(journal.len().min(most));
    journal[at] ^= 1 << rng.below(8);
}

fn near_old_row(rng: &mut Rng, case: &mut Case) {
    let journal = case.bytes_mut("journal");
    if journal.len() > ROW {
        let start = journal.len() - ROW;
        touch_row(rng, &mut journal[start..]);
    }
}

fn any_last(rng: &mut Rng, case: &mut Case) {
    let batch = case.bytes_mut("batch");
    let start = batch.len() - RECORD;
    match rng.percent(50) {
        true => rng.fill(&mut batch[start..]),
        false => {
            let world = world(rng);
            let record = scene::any_record(rng, &world);
            batch[start..].copy_from_slice(&record);
        }
    }
}

fn wide_totals(rng: &mut Rng, case: &mut Case) {
    let mut record = [SPACE; RECORD];
    record[64..72].fill(0xF9);
    record[72] = rng.pick(&[0xC1, 0xD4]);
    record[73] = rng.pick(&[0xC1, 0xD5]);
    let count = rng.pick(&[1001, 1002, 1010]);
    *case.bytes_mut("batch") = record.repeat(count);
}

fn many_details(rng: &mut Rng, case: &mut Case) {
    let world = world(rng);
    for name in ["first", "second"] {
        let count = rng.pick(&[0, 1, 10, 40]);
        let details: Vec<_> = (0..count).map(|_| scene::any_record(rng, &world)).collect();
        *case.bytes_mut(name) = generator::records::batch(world.state, &details);
    }
    let records = (case.bytes("first").len() + case.bytes("second").len()) / RECORD - 1;
    let spare = rng.pick(&[0, 0, 1, 245]);
    *case.bytes_mut("out") = vec![0x5A; RECORD * records + spare];
}

fn near_key(rng: &mut Rng, case: &mut Case) {
    let key = case.bytes_mut("key");
    match rng.below(6) {
        0 => key[11] ^= 0xC1 ^ 0xD5,
        1 => key[10] ^= 1,
        2 => key[2 + rng.below(9)] = rng.pick(&EDGES),
        3 => put_text(key, 1, rng.pick(&["GU", "WY", "ZZ", "AB"])),
        4 => put_text(key, 3, rng.pick(&generator::world::BAD_SSN)),
        _ => put_text(key, 3, rng.pick(&generator::world::GOOD_SSN)),
    }
}

fn near_keys(rng: &mut Rng, case: &mut Case) {
    let keys = case.bytes_mut("keys");
    let count = keys.len() / 12;
    if count == 0 {
        return;
    }
    let at = 12 * rng.below(count);
    match rng.below(4) {
        0 => keys[at + 11] = rng.pick(&[0xC1, 0xD5, 0x40]),
        1 => put_text(
            &mut keys[at..at + 12],
            3,
            rng.pick(&generator::world::BAD_SSN),
        ),
        2 => put_text(
            &mut keys[at..at + 12],
            3,
            rng.pick(&generator::world::GOOD_SSN),
        ),
        _ => keys[at + rng.below(12)] = rng.pick(&EDGES),
    }
}

fn every_set(rng: &mut Rng, case: &mut Case) {
    for at in 0..row_count(case) {
        case.bytes_mut("master")[at * ROW + 194] = rng.below(256) as u8;
    }
}

fn every_wanted_set(rng: &mut Rng, case: &mut Case) {
    for name in ["row", "wanted"] {
        if rng.percent(80) {
            case.bytes_mut(name)[194] = rng.below(256) as u8;
        }
    }
}

fn wanted_cents(rng: &mut Rng, case: &mut Case) {
    let dollars = case.bytes("row")[65..73].to_vec();
    put_text(case.bytes_mut("row"), 197, rng.pick(&["00", "50", "01"]));
    let wanted = case.bytes_mut("wanted");
    if rng.percent(60) {
        put(wanted, 66, &dollars);
    }
    put_text(wanted, 197, rng.pick(&["00", "00", "50", "01"]));
}

/// What a row of a master owes, in cents.
fn balance(row: &[u8]) -> u64 {
    number(&row[65..73]).unwrap_or(0) * 100 + number(&row[196..198]).unwrap_or(0)
}

/// Lines that collect about what a row owes, or raise it about to the limit.
fn near_balance(rng: &mut Rng, case: &mut Case) {
    let world = world(rng);
    let master = scene::master(rng, &world);
    let mut lines: Vec<Line> = Vec::new();
    let known = own(rng, &world);
    let place = world
        .known
        .iter()
        .position(|one| one.key == known.key)
        .unwrap_or(0);
    let owed = balance(&master[place * ROW..]);
    let room = 9_999_999_999 - owed;
    for _ in 0..rng.between(1, 3) {
        let near = rng.pick(&[0, 1, 2, 99, 100, 101]);
        let up = rng.percent(50);
        let around = |amount: u64| {
            if up {
                amount + near
            } else {
                amount.saturating_sub(near)
            }
        };
        lines.push(match rng.below(4) {
            0 => line(&known.key, around(owed), 0),
            1 => line(&known.key, 0, around(room)),
            2 => line(&known.key, owed - owed % 100, 0),
            _ => line(&known.key, near, 0),
        });
    }
    *case = post(rng, &world, master, &lines);
}

/// Amounts with one byte at an edge, or the other sign.
fn near_amount(rng: &mut Rng, case: &mut Case) {
    let world = world(rng);
    let master = scene::master(rng, &world);
    let known = own(rng, &world);
    let lines: Vec<Line> = (0..rng.between(1, 3))
        .map(|_| {
            let mut line = line(&known.key, 0, 0);
            let column = rng.pick(&[76, 87]);
            put(&mut line, column, &digits(rng.pick(&[0, 1, 10, 1234]), 11));
            let last = rng.below(10) as u8;
            match rng.below(5) {
                0 => line[column + 9] = 0xC0 + last,
                1 => line[column + 9] = 0xD0 + last,
                2 => line[column + 9] = rng.pick(&EDGES),
                3 => line[column - 1 + rng.below(11)] = rng.pick(&[0x40, 0xEF, 0xFA, 0xC0, 0xC1]),
                _ => {}
            }
            line
        })
        .collect();
    *case = post(rng, &world, master, &lines);
}

fn other_lines(rng: &mut Rng, case: &mut Case) {
    let world = world(rng);
    let master = scene::master(rng, &world);
    let lines: Vec<Line> = (0..rng.between(1, 4))
        .map(|_| {
            let mut key = match rng.below(4) {
                0 => rng.pick(&world.fresh),
                1 => rng.pick(&world.unsound),
                _ => world.known[rng.below(world.known.len())].key,
            };
            if rng.percent(10) {
                key[11] ^= 0xC1 ^ 0xD5;
            }
            let amount = rng.pick(&[0, 0, 1, 100, 9_999_999_999, 99_999_999_999]);
            let other = rng.pick(&[0, 0, 1, 100]);
            let mut line = match rng.percent(50) {
                true => line(&key, amount, other),
                false => line(&key, other, amount),
            };
            if rng.percent(40) {
                rng.fill(&mut line[107..]);
            }
            if rng.percent(30) {
                rng.fill(&mut line[14..75]);
            }
            if rng.percent(30) {
                line[105] = rng.pick(&[0xC1, 0xD5]);
            }
            line
        })
        .collect();
    *case = post(rng, &world, master, &lines);
    if rng.percent(20) {
        let file = case.bytes_mut("file");
        let start = file.len() - posting::LINE;
        rng.fill(&mut file[start + 14..start + 34]);
    }
}

fn any_byte(rng: &mut Rng, case: &mut Case) {
    let input = case.bytes_mut("in");
    if input.is_empty() {
        return;
    }
    let at = rng.below(input.len());
    input[at] = rng.below(256) as u8;
}

fn near_contact(rng: &mut Rng, case: &mut Case) {
    if case.bytes("file").is_empty() {
        let record = scene::contacts(rng, 1).concat();
        case.bytes_mut("file").extend(record);
        case.bytes_mut("faulty").extend([0; 4]);
        let table = case.bytes_mut("table");
        table.extend([0x77; 220]);
    }
    let file = case.bytes_mut("file");
    let at = 220 * rng.below(file.len() / 220);
    for _ in 0..rng.pick(&[1, 1, 1, 2]) {
        touch_contact(rng, &mut file[at..at + 220]);
    }
}

fn near_table(rng: &mut Rng, case: &mut Case) {
    let count = case.count("count") as usize;
    if count > 0 {
        let at = 220 * rng.below(count);
        touch_contact(rng, &mut case.bytes_mut("table")[at..at + 220]);
    }
}

/// Records of few keys, good and faulty in turn.
fn same_contacts(rng: &mut Rng, case: &mut Case) {
    let keys = scene::contacts(rng, 2);
    let mut file: Vec<[u8; 220]> = Vec::new();
    for _ in 0..rng.between(2, 5) {
        let mut key = [SPACE; 5];
        key.copy_from_slice(&keys[rng.below(keys.len())][..5]);
        let mut record = generator::contacts::good(rng, key);
        if rng.percent(30) {
            touch_contact(rng, &mut record);
        }
        file.push(record);
    }
    let room = 220 * (case.count("count") as usize + file.len());
    let table = case.bytes_mut("table");
    table.resize(room, 0x77);
    *case.bytes_mut("faulty") = vec![0x11; 4 * file.len()];
    *case.bytes_mut("file") = file.concat();
}
