//! What each refusal names, put into a case that is carried out, and its nearest neighbour that is no refusal.

use generator::records::RECORD;
use generator::rng::Rng;
use generator::rows::ROW;
use generator::text::{digits, number, put, put_text, STATES};

use crate::case::Case;
use crate::details::date;
use crate::room::{asked, lacking, new_rows, row_count};
use crate::scene::put_number;

const BAD_STATES: [&str; 9] = ["ZZ", "  ", "AA", "O ", " H", "00", "KA", "WZ", "GY"];

/// Puts into a case what a refusal of its call names. A pair is broken by both, the later one first.
pub fn break_by(rng: &mut Rng, case: &mut Case, refusal: u64) {
    match refusal {
        1 => case.set_count(
            "year",
            rng.pick(&[1899, 10_000, 0, (1 << 32) + 2007, u64::MAX]),
        ),
        2 => break_list(rng, case.bytes_mut("locals")),
        3 => break_master(rng, case),
        4 => break_row(rng, case),
        5 | 6 | 7 | 8 | 20 | 21 => break_batch(rng, case, refusal),
        9 => break_room(rng, case),
        10 => shorten(rng, case, "verdicts", 8),
        11 => break_output(rng, case),
        12 => break_state(rng, case),
        13 => break_date(rng, case),
        14 => break_key(rng, case.bytes_mut("key")),
        15 => case.bytes_mut("key")[2..11].copy_from_slice(&digits(876_543_210, 9)),
        16 => break_character(rng, case),
        17 => shorten(rng, case, "out", 1),
        18 => break_contacts(rng, case),
        19 => break_contact_room(rng, case),
        22 => break_length(rng, case.bytes_mut("file")),
        23 => break_total(rng, case),
        24 => shorten(rng, case, "lines", 4),
        25 => break_journal_room(rng, case),
        26 => break_journal(rng, case),
        27 => break_keys(rng, case.bytes_mut("keys")),
        28 => shorten(rng, case, "places", 4),
        29 => break_wanted(rng, case),
        30 => case
            .bytes_mut("out")
            .truncate(rng.pick(&[979, 735, 245, 0])),
        31 => break_output(rng, case),
        32 => break_merging(rng, case),
        33 => break_output(rng, case),
        _ => {}
    }
}

/// One number less than there are, or none at all.
fn shorten(rng: &mut Rng, case: &mut Case, name: &str, width: usize) {
    let needed = match name {
        "verdicts" => (case.bytes("batch").len() / RECORD).saturating_sub(1),
        "lines" => (case.bytes("file").len() / 240).saturating_sub(1),
        "places" => case.bytes("keys").len() / 12,
        _ => case.bytes("in").len(),
    };
    let less = match rng.percent(75) {
        true => needed.saturating_sub(1),
        false => 0,
    };
    case.bytes_mut(name).truncate(less * width);
}

pub fn break_list(rng: &mut Rng, list: &mut Vec<u8>) {
    let length = list.len();
    match rng.below(5) {
        0 => list.push(0xF1),
        1 if length >= 3 => list.extend_from_within(length - 3..),
        2 if length >= 6 => list[length - 6..].rotate_left(3),
        3 if length >= 3 => {
            list.pop();
        }
        4 if length >= 3 => list[rng.below(length)] = rng.pick(&[0x40, 0xFA, 0xEF, 0xC1]),
        _ => list.extend([0xF9, 0xF9, 0xFA]),
    }
}

fn break_master(rng: &mut Rng, case: &mut Case) {
    let length = case.bytes("master").len();
    match rng.below(5) {
        0 => case.bytes_mut("master").push(0x40),
        1 if length > 0 => {
            case.bytes_mut("master").pop();
        }
        2 => {
            let more = rng.between(1, 199);
            case.bytes_mut("master").extend(rng.bytes(more));
        }
        3 => case.set_count(
            "rows",
            rng.pick(&[u64::MAX, 1 << 32, 16_777_216, u64::MAX / 200]),
        ),
        _ => case.set_count("rows", (length / ROW) as u64 + 1),
    }
}

/// A row that is surely unsound, or two out of order.
fn break_row(rng: &mut Rng, case: &mut Case) {
    if case.has("wanted") {
        let name = rng.pick(&["row", "wanted"]);
        let row = case.bytes_mut(name);
        match row.len() == ROW && rng.percent(80) {
            true => unsound(rng, row),
            false => row.push(0x40),
        }
        return;
    }
    let rows = row_count(case);
    let (old, master) = (case.call().name == "add_cents", case.bytes_mut("master"));
    if rows == 0 {
        return;
    }
    let at = rng.pick(&[0, rows - 1, rng.clone().below(rows)]);
    if rows > 1 && rng.percent(30) {
        let at = at.max(1);
        let (before, row) = master[(at - 1) * ROW..].split_at_mut(ROW);
        match rng.percent(50) {
            true => row[..12].copy_from_slice(&before[..12]),
            false => before.swap_with_slice(&mut row[..ROW]),
        }
        return;
    }
    let row = &mut master[at * ROW..(at + 1) * ROW];
    match old && rng.percent(40) {
        true => row[196 + rng.below(4)] = 0xF0,
        false => unsound(rng, row),
    }
}

fn unsound(rng: &mut Rng, row: &mut [u8]) {
    match rng.below(9) {
        0 => put_text(row, 1, rng.pick(&BAD_STATES)),
        1 => put_text(
            row,
            3,
            rng.pick(&["000000000", "666123456", "123004567", "123450000"]),
        ),
        2 => row[11] = rng.pick(&[0x40, 0xC2, 0xD4]),
        3 => row[12 + rng.below(3)] = rng.pick(&[0x40, 0xFA, 0xC1]),
        4 => put_text(row, 31, rng.pick(&["----", "    ", "A B ", " ABC", "-   "])),
        5 => row[rng.pick(&[65, 69, 72])] = rng.pick(&[0x40, 0xFA, 0xC1]),
        6 => row[rng.pick(&[78, 81, 82, 89])] = rng.pick(&[0x40, 0xFA, 0xC1]),
        7 => row[195] = rng.pick(&[0xC5, 0x00, 0xF0]),
        _ => row[rng.pick(&[198, 199])] = 0xF0,
    }
}

/// The name of the batch that a break is for.
fn batch_of(rng: &mut Rng, case: &Case) -> &'static str {
    match case.has("first") {
        true => rng.pick(&["first", "second"]),
        false => "batch",
    }
}

fn break_batch(rng: &mut Rng, case: &mut Case, refusal: u64) {
    let name = batch_of(rng, case);
    let batch = case.bytes_mut(name);
    if refusal == 5 {
        return break_length(rng, batch);
    }
    let Some(start) = batch.len().checked_sub(RECORD) else {
        return;
    };
    let control = &mut batch[start..];
    match refusal {
        6 => put_text(
            control,
            3,
            rng.pick(&["CTM", "   ", "CT ", " CTL", "RCT", "CLT"]),
        ),
        20 => put_text(control, 1, rng.pick(&BAD_STATES)),
        21 => {
            let place = rng.pick(&[5, 13, 14, 22, 23, 33, 34, 44, 45, 46, 100, 244]);
            control[place] = rng.pick(&[0xFA, 0xC1, 0x4B]);
        }
        7 => raise(control, rng.pick(&[(6, 14), (15, 23)])),
        _ => raise(control, rng.pick(&[(24, 34), (35, 45)])),
    }
}

/// A total raised by one.
fn raise(control: &mut [u8], (first, last): (usize, usize)) {
    let width = last - first + 1;
    let total = number(&control[first - 1..last]).unwrap_or(0) + 1;
    put(control, first, &digits(total, width));
}

fn break_length(rng: &mut Rng, bytes: &mut Vec<u8>) {
    match rng.below(4) {
        0 => bytes.clear(),
        1 => {
            bytes.pop();
        }
        2 => bytes.push(0x40),
        _ => {
            let more = rng.between(1, 239);
            bytes.extend(rng.bytes(more));
        }
    }
}

/// Room for one row too few.
fn break_room(rng: &mut Rng, case: &mut Case) {
    if rng.percent(50) {
        spoil_adds(rng, case);
    }
    let (rows, new) = (row_count(case), new_rows(case));
    if new > 0 {
        case.bytes_mut("master").truncate((rows + new - 1) * ROW);
    }
}

/// A records with errors, which ask for room all the same.
fn spoil_adds(rng: &mut Rng, case: &mut Case) {
    let batch = case.bytes_mut("batch");
    let details = (batch.len() / RECORD).saturating_sub(1);
    for record in batch.chunks_exact_mut(RECORD).take(details) {
        if record[72] != 0xC1 || rng.percent(30) {
            continue;
        }
        match rng.below(6) {
            0 => put_text(record, 65, "00000024"),
            1 => record[230] = 0xF0,
            2 => put_text(record, 6, "000000000"),
            3 => put_text(record, 1, "ZZ"),
            4 => record[73] = 0xE7,
            _ => put_text(record, 30, "    "),
        }
    }
    crate::shrink::mend_totals(batch);
}

/// A records of any kind, with just the room that they ask for or a row less.
pub fn near_room(rng: &mut Rng, case: &mut Case) {
    spoil_adds(rng, case);
    let needed = row_count(case) + new_rows(case);
    let room = needed - usize::from(rng.percent(50) && new_rows(case) > 0);
    case.bytes_mut("master").resize(room * ROW, 0xA5);
}

/// An output of one byte too few.
fn break_output(rng: &mut Rng, case: &mut Case) {
    let name = if case.has("rejects") {
        "rejects"
    } else {
        "out"
    };
    let asked = asked(case).into_iter().find(|(output, _)| *output == name);
    let needed = asked.map_or(0, |(_, needed)| needed);
    let short = match rng.percent(75) {
        true => needed.saturating_sub(1),
        false => rng.below(needed + 1).min(needed.saturating_sub(1)),
    };
    case.bytes_mut(name).truncate(short);
}

fn break_state(rng: &mut Rng, case: &mut Case) {
    let state = case.bytes_mut("state");
    match rng.below(6) {
        0 => state.push(0x40),
        1 => {
            state.pop();
        }
        2 => state.clear(),
        _ => *state = generator::text::text(rng.pick(&BAD_STATES)),
    }
}

fn break_date(rng: &mut Rng, case: &mut Case) {
    let wrong = [
        "19000229",
        "20070229",
        "20071301",
        "20070001",
        "20070100",
        "20070132",
        "18991231",
        "        ",
        "2007 101",
        "20070431",
        "20071131",
        "2007013",
        "200701311",
        "",
    ];
    *case.bytes_mut("date") = generator::text::text(rng.pick(&wrong));
}

fn break_key(rng: &mut Rng, key: &mut Vec<u8>) {
    match rng.below(7) {
        0 => key.push(0x40),
        1 => {
            key.pop();
        }
        2 => key.clear(),
        3 => put_text(key, 1, rng.pick(&BAD_STATES)),
        4 => put_text(key, 3, rng.pick(&["000000000", "666123456", "12345678 "])),
        _ => key[11] = rng.pick(&[0x40, 0xC2, 0xD4]),
    }
}

fn break_character(rng: &mut Rng, case: &mut Case) {
    let wrong = match case.call().name {
        "to_ebcdic" => [b'a', b'i', b'\n', 0x00, 0x7F, 0x80, b'*', b'_'],
        _ => [0x00, 0x41, 0x81, 0xC0, 0xCA, 0xD0, 0xE1, 0xFA],
    };
    let input = case.bytes_mut("in");
    if input.is_empty() {
        input.push(rng.pick(&wrong));
        return;
    }
    for _ in 0..rng.between(1, 2) {
        let at = rng.below(input.len());
        input[at] = rng.pick(&wrong);
    }
}

/// Puts a text at the start or at the end of a field of 35 columns, blank otherwise.
fn place_text(rng: &mut Rng, record: &mut [u8], column: usize, text: &str) {
    record[column - 1..column + 34].fill(0x40);
    let last = 36 - text.len();
    put_text(record, column - 1 + rng.pick(&[1, 1, last]), text);
}

/// An agency name with or without what it must contain.
fn touch_agency(rng: &mut Rng, record: &mut [u8]) {
    let names = [
        "CHILD SUPPORT",
        "FAMILY SUPPORT",
        "CHILD  SUPPORT",
        "CHILDSUPPORT",
        "XFAMILY SUPPORTX",
        "CHILD SUPPOR",
        "FAMILY CHILD",
        "IRS CHILD SUPPORT",
        "FIRST CHILD SUPPORT",
    ];
    let name = rng.pick(&names);
    place_text(rng, record, 42, name);
}

/// An address line with a run of letters that is IRS or FMS, or nearly.
fn touch_line(rng: &mut Rng, record: &mut [u8]) {
    let texts = [
        "IRS", "FMS", "FIRST", "IRS1", "(FMS)", "AIRS", "IRSA", "I RS",
    ];
    let (column, text) = (rng.pick(&[77, 112, 147, 182]), rng.pick(&texts));
    place_text(rng, record, column, text);
}

/// A contact record that is faulty by one rule, or just not.
pub fn touch_contact(rng: &mut Rng, record: &mut [u8]) {
    match rng.below(14) {
        0 => put_text(record, 1, rng.pick(&BAD_STATES)),
        1 => record[2 + rng.below(3)] = rng.pick(&[0x40, 0xFA, 0xC1]),
        2 => record[5 + rng.below(14)] = rng.pick(&[0x40, 0xF0, 0x60, 0x4D, 0x5D, 0xFA]),
        3 => put_text(
            record,
            24,
            rng.pick(&["(301) 555-1212", "              ", "(301)555-1212 "]),
        ),
        4 => put_text(
            record,
            20,
            rng.pick(&["    ", "1   ", "1234", " 1  ", "1 2 ", "A   ", "12A "]),
        ),
        5 => put_text(
            record,
            38,
            rng.pick(&["    ", "1   ", "1234", " 1  ", "1 2 ", "A   ", "12A "]),
        ),
        6 | 7 => touch_agency(rng, record),
        8 | 9 => touch_line(rng, record),
        10 => {
            record[76..181].fill(0x40);
            record[rng.pick(&[75, 76, 110, 145, 146, 180, 181])] = 0xE7;
        }
        11 => record[76..181].fill(0x40),
        12 => {
            record[181..216].fill(0x40);
            record[rng.pick(&[180, 181, 215, 216])] = rng.pick(&[0x40, 0xE7]);
        }
        _ => record[rng.pick(&[215, 216, 218, 219])] = rng.pick(&[0x41, 0xF0, 0x00]),
    }
}

fn break_contacts(rng: &mut Rng, case: &mut Case) {
    let count = case.count("count");
    let room = (case.bytes("table").len() / 220) as u64;
    let is_update = case.has("file");
    match rng.below(6) {
        0 if is_update => case.bytes_mut("file").push(0x40),
        1 => case.bytes_mut("table").push(0x40),
        2 => case.set_count("count", rng.pick(&[room + 1, u64::MAX, 1 << 40])),
        3 if count > 0 && count <= room => {
            let at = 220 * rng.below(count as usize);
            case.bytes_mut("table")[at + rng.pick(&[0, 3, 8, 219])] = 0x41;
        }
        4 if count > 1 && count <= room => {
            let table = case.bytes_mut("table");
            let (one, two) = table.split_at_mut(220);
            match rng.percent(50) {
                true => two[..5].copy_from_slice(&one[..5]),
                false => one.swap_with_slice(&mut two[..220]),
            }
        }
        _ => {
            case.bytes_mut("table").extend([0x40; 17]);
        }
    }
}

fn break_contact_room(rng: &mut Rng, case: &mut Case) {
    let is_update = case.has("file");
    let lacks = is_update && lacking(case) > 0;
    let asked = asked(case);
    let (name, needed) = match is_update && lacks && rng.percent(50) {
        true => asked[1],
        false => asked[0],
    };
    let unit = match name {
        "out" => 1,
        "faulty" => 4,
        _ => 220,
    };
    case.bytes_mut(name).truncate(needed.saturating_sub(unit));
}

fn break_total(rng: &mut Rng, case: &mut Case) {
    let file = case.bytes_mut("file");
    let Some(start) = file.len().checked_sub(240) else {
        return;
    };
    let last = &mut file[start..];
    match rng.below(4) {
        0 => put_text(
            last,
            6,
            rng.pick(&["TOTALS   ", "TOTAL   X", "         ", " TOTAL   "]),
        ),
        1 => last[rng.between(34, 63)] = rng.pick(&[0x40, 0xFA]),
        2 => raise(last, (35, 49)),
        _ => raise(last, (50, 64)),
    }
}

fn break_journal_room(rng: &mut Rng, case: &mut Case) {
    let details = (case.bytes("batch").len() / RECORD).saturating_sub(1);
    let needed = 12 + 205 * details;
    let short = rng.pick(&[needed - 1, needed - 1, needed - 12, 205 * details, 0]);
    case.bytes_mut("journal").truncate(short);
}

fn break_journal(rng: &mut Rng, case: &mut Case) {
    let rows = case.count("rows");
    let journal = case.bytes_mut("journal");
    match rng.below(9) {
        0 => journal.clear(),
        1 => {
            journal.pop();
        }
        2 => journal.push(rng.pick(&[0, 1, 0x80, 0xFF])),
        3 => {
            // a longer form of the count before
            if let Some(end) = journal.iter().position(|&byte| byte < 0x80) {
                journal[end] |= 0x80;
                journal.insert(end + 1, 0);
            }
        }
        4 => {
            // a place twice, or one that isn't there
            put_number(journal, rows.saturating_sub(1));
            journal.push(0);
        }
        5 => {
            put_number(journal, rows);
            journal.push(0);
        }
        6 => journal[0] = journal[0].wrapping_add(1) & 0x7F,
        7 => {
            let at = rng.below(journal.len());
            journal[at] ^= 1 << rng.below(8);
        }
        _ => {
            let mut other = Vec::new();
            put_number(&mut other, rows);
            put_number(&mut other, rows);
            put_number(&mut other, rng.below(rows as usize + 2) as u64);
            other.push(rng.pick(&[0, 2, 0x40]));
            *journal = other;
        }
    }
}

fn break_keys(rng: &mut Rng, keys: &mut Vec<u8>) {
    let count = keys.len() / 12;
    match rng.below(5) {
        0 => keys.push(0x40),
        1 if count > 0 => keys.extend_from_within(12 * (count - 1)..12 * count),
        2 if count > 1 => keys[..24].rotate_left(12),
        3 if count > 0 => keys[12 * rng.below(count) + 11] = 0xC2,
        _ => keys.extend([0xE9; 12]),
    }
}

/// A wanted row that no records lead to, or just still do.
fn break_wanted(rng: &mut Rng, case: &mut Case) {
    if case.bytes("row").len() != ROW || case.bytes("wanted").len() != ROW {
        return;
    }
    let deleted = rng.once_in(7);
    if deleted {
        let row = case.bytes_mut("row");
        put(row, 66, &[0xF0; 8]);
        put(row, 196, &[0xC4, 0xF0, 0xF0]);
    }
    let wanted = case.bytes_mut("wanted");
    match rng.below(7) {
        _ if deleted => wanted[194] ^= 1,
        0 => wanted[15..30].fill(0x40),
        1 => put_text(wanted, 13, rng.pick(&["999", "998", "500"])),
        2 => wanted[194] = rng.pick(&[0b0001, 0b0011, 0b0111, 0b1101, 0b1001_0001]),
        3 => put_text(wanted, 196, " 01"),
        4 => wanted[rng.pick(&[30, 49, 50, 64, 73, 77, 90, 150, 175, 177, 186, 193])] ^= 0x01,
        5 => {
            put(wanted, 66, &[0xF0; 8]);
            put_text(wanted, 196, "D00");
        }
        _ => put_text(wanted, 3, "123456788"),
    }
}

/// Two states, or amounts whose sum has twelve digits.
fn break_merging(rng: &mut Rng, case: &mut Case) {
    if rng.percent(50) {
        let second = case.bytes_mut("second");
        if let Some(start) = second.len().checked_sub(RECORD) {
            let other = rng.pick(&STATES);
            put_text(&mut second[start..], 1, other);
        }
    } else {
        wide_amounts(rng, case);
    }
}

/// Batches with sums just above or just within eleven digits.
pub fn wide_amounts(rng: &mut Rng, case: &mut Case) {
    let count = rng.pick(&[500, 501, 501, 501]);
    let case_type = rng.pick(&[0xC1, 0xD5]);
    let mut detail = [0x40; RECORD];
    put_text(&mut detail, 1, "OH");
    detail[72] = 0xD4;
    detail[73] = case_type;
    put(&mut detail, 65, &[0xF9; 8]);
    // 1,000 such amounts are 99,999,999,000; what is missing to eleven digits is 999
    let mut last = detail;
    put(
        &mut last,
        65,
        &digits(rng.pick(&[999, 1000, 1000, 1001]), 8),
    );
    for name in ["first", "second"] {
        let mut details = vec![detail; if name == "first" { 500 } else { count - 1 }];
        details.push(last);
        *case.bytes_mut(name) = generator::records::batch([0xD6, 0xC8], &details);
        put(&mut last, 65, &digits(0, 8));
    }
    *case.bytes_mut("out") = vec![0xA5; RECORD * 1004];
}

/// A date for reconciling on either side of the calendar.
pub fn near_date(rng: &mut Rng, case: &mut Case) {
    *case.bytes_mut("date") = date(rng);
}
