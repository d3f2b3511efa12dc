//! Applying a batch ("Applying a batch" in document 01, with items 3 and 5 of document 02).

use std::collections::BTreeMap;

use crate::errors::{code_digits, given_name, is_type, Names, Surroundings};
use crate::limits::{MOST, MOST_RECORDS};
use crate::machine::{step, Verdict};
use crate::row::{refusal_03, refusal_04, row_key, rows_of, Key, Row, ROW};
use crate::text::{
    all_digits, column, columns, columns_mut, ebcdic, ebcdic_byte, in_state_table, is_blank,
    number, write_number, SPACE,
};

pub const RECORD: usize = 245;

/// "The result carries accepted, rejected and warned, neither and rows."
#[derive(Clone, Copy, Debug, PartialEq, Eq, Default)]
pub struct Counts {
    pub accepted: u64,
    pub rejected: u64,
    pub warned: u64,
    pub neither: u64,
    pub rows: u64,
}

/// A record's key: "columns 1–2, 6–14, 74, sound or not".
pub fn record_key(record: &[u8]) -> Key {
    let mut key = [SPACE; 12];
    key[..2].copy_from_slice(columns(record, 1, 2));
    key[2..11].copy_from_slice(columns(record, 6, 14));
    key[11] = column(record, 74);
    key
}

/// "1 year outside 1900–9999"
pub fn refusal_01(year: u64) -> bool {
    !(1900..=9999).contains(&year)
}

/// "2 list not made of three-digit codes, three bytes each, strictly rising (an empty list
/// passes)"
pub fn refusal_02(list: &[u8]) -> bool {
    let codes: Vec<&[u8]> = list.chunks(3).collect();
    !list.len().is_multiple_of(3)
        || !all_digits(list)
        || codes.windows(2).any(|pair| pair[0] >= pair[1])
}

/// "5 batch empty, no multiple of 245, or over" the limit's records
pub fn refusal_05(batch: &[u8]) -> bool {
    batch.is_empty() || !batch.len().is_multiple_of(RECORD) || batch.len() / RECORD > MOST_RECORDS
}

/// 6: "only that CTL is missing"
pub fn refusal_06(control: &[u8]) -> bool {
    columns(control, 3, 5) != ebcdic(b"CTL")
}

/// "20, a state not in the table"
pub fn refusal_20(control: &[u8]) -> bool {
    !in_state_table(columns(control, 1, 2))
}

/// "21, a total that isn't digits or a filler that isn't spaces"
pub fn refusal_21(control: &[u8]) -> bool {
    !all_digits(columns(control, 6, 45)) || !is_blank(columns(control, 46, 245))
}

fn of_case_type(record: &[u8], case_type: u8) -> bool {
    column(record, 74) == ebcdic_byte(case_type)
}

/// The number of records of a case type.
pub fn count(details: &[&[u8]], case_type: u8) -> u64 {
    details
        .iter()
        .filter(|record| of_case_type(record, case_type))
        .count() as u64
}

/// "Amounts sum columns 65–72 of A and M records where they are eight digits."
pub fn amount(details: &[&[u8]], case_type: u8) -> u64 {
    details
        .iter()
        .filter(|record| of_case_type(record, case_type) && is_type(record, b"AM"))
        .filter_map(|record| number(columns(record, 65, 72)))
        .sum()
}

/// "7 a count differs"
pub fn refusal_07(details: &[&[u8]], control: &[u8]) -> bool {
    number(columns(control, 6, 14)) != Some(count(details, b'A'))
        || number(columns(control, 15, 23)) != Some(count(details, b'N'))
}

/// "8 an amount differs"
pub fn refusal_08(details: &[&[u8]], control: &[u8]) -> bool {
    number(columns(control, 24, 34)) != Some(amount(details, b'A'))
        || number(columns(control, 35, 45)) != Some(amount(details, b'N'))
}

/// "9 rows plus A records whose key has no row at entry exceed length ÷ 200" or the limit
pub fn refusal_09(master: &[u8], cases: &BTreeMap<Key, Row>, details: &[&[u8]]) -> bool {
    let new = details
        .iter()
        .filter(|record| is_type(record, b"A") && !cases.contains_key(&record_key(record)))
        .count();
    let rows = cases.len() + new;
    rows > master.len() / ROW || rows > MOST
}

/// "10 verdict list shorter than the details"
pub fn refusal_10(verdicts: &[u64], details: &[&[u8]]) -> bool {
    verdicts.len() < details.len()
}

/// "11 reject buffer below 245 × (records + 1)"
pub fn refusal_11(buffer: &[u8], records: usize) -> bool {
    buffer.len() < RECORD * (records + 1)
}

/// The details and the control record of a batch that passes 5, 6, 20, 21, 7 and 8; Err holds the
/// refusal's number.
pub fn parts(batch: &[u8]) -> Result<(Vec<&[u8]>, &[u8]), u64> {
    if refusal_05(batch) {
        return Err(5);
    }
    let mut details: Vec<&[u8]> = batch.chunks_exact(RECORD).collect();
    let Some(control) = details.pop() else {
        return Err(5);
    };
    if refusal_06(control) {
        return Err(6);
    }
    if refusal_20(control) {
        return Err(20);
    }
    if refusal_21(control) {
        return Err(21);
    }
    if refusal_07(&details, control) {
        return Err(7);
    }
    if refusal_08(&details, control) {
        return Err(8);
    }
    Ok((details, control))
}

/// A batch that no refusal of apply holds of, and the rows at entry.
pub struct Admitted<'a> {
    pub details: Vec<&'a [u8]>,
    pub around: Surroundings<'a>,
    pub cases: BTreeMap<Key, Row>,
}

/// The refusals of apply, in order; Err holds the first that holds.
pub fn admitted<'a>(
    master: &[u8],
    rows: usize,
    batch: &'a [u8],
    list: &'a [u8],
    year: u64,
    verdicts: &[u64],
    rejects: &[u8],
) -> Result<Admitted<'a>, u64> {
    if refusal_01(year) {
        return Err(1);
    }
    if refusal_02(list) {
        return Err(2);
    }
    if refusal_03(master, rows) {
        return Err(3);
    }
    if refusal_04(master, rows) {
        return Err(4);
    }
    let (details, control) = parts(batch)?;
    let cases = cases_of(master, rows);
    if refusal_09(master, &cases, &details) {
        return Err(9);
    }
    if refusal_10(verdicts, &details) {
        return Err(10);
    }
    if refusal_11(rejects, details.len()) {
        return Err(11);
    }
    let state = [column(control, 1), column(control, 2)];
    let around = Surroundings { state, year, list };
    Ok(Admitted {
        details,
        around,
        cases,
    })
}

/// Carries out a batch; the rows at the end are left in `batch.cases`.
pub fn carry_out(
    batch: &mut Admitted,
    master: &mut [u8],
    verdicts: &mut [u64],
    rejects: &mut [u8],
) -> Counts {
    let details = &batch.details;
    let given = run(&mut batch.cases, details, &batch.around);
    write_master(master, &batch.cases);
    for (place, verdict) in verdicts.iter_mut().zip(&given) {
        *place = verdict.codes;
    }
    write_rejects(rejects, details, &given, batch.around.state);
    let mut counts = counts_of(details, &given);
    counts.rows = batch.cases.len() as u64;
    counts
}

/// Applies a batch to the master; Err holds the refusal's number.
pub fn apply(
    master: &mut [u8],
    rows: usize,
    batch: &[u8],
    list: &[u8],
    year: u64,
    verdicts: &mut [u64],
    rejects: &mut [u8],
) -> Result<Counts, u64> {
    let mut batch = admitted(master, rows, batch, list, year, verdicts, rejects)?;
    Ok(carry_out(&mut batch, master, verdicts, rejects))
}

/// The rows by key.
pub fn cases_of(master: &[u8], rows: usize) -> BTreeMap<Key, Row> {
    let case = |bytes: &[u8]| {
        let mut row = [SPACE; ROW];
        row.copy_from_slice(bytes);
        (row_key(bytes), row)
    };
    rows_of(master, rows).map(case).collect()
}

/// By key, the names that its B records give, "anywhere in the batch".
fn names_of(details: &[&[u8]], around: &Surroundings) -> BTreeMap<Key, Names> {
    let mut names: BTreeMap<Key, Names> = BTreeMap::new();
    for record in details {
        let own = names.entry(record_key(record)).or_default();
        own.extend(given_name(record, around));
    }
    names
}

/// "The machine runs on each detail in turn."
fn run(cases: &mut BTreeMap<Key, Row>, details: &[&[u8]], around: &Surroundings) -> Vec<Verdict> {
    let names = names_of(details, around);
    let mut given = Vec::new();
    for record in details {
        let key = record_key(record);
        let (row, verdict) = step(cases.get(&key).copied(), record, &names[&key], around);
        if let Some(row) = row {
            cases.insert(key, row);
        }
        given.push(verdict);
    }
    given
}

/// The rows in key order; bytes past the last row are kept.
pub fn write_master(master: &mut [u8], cases: &BTreeMap<Key, Row>) {
    for (place, row) in master.chunks_exact_mut(ROW).zip(cases.values()) {
        place.copy_from_slice(row);
    }
}

/// "for each detail with a code, again in batch order", then the control record
fn write_rejects(rejects: &mut [u8], details: &[&[u8]], given: &[Verdict], state: [u8; 2]) {
    let mut places = rejects.chunks_exact_mut(RECORD);
    for (record, verdict) in details.iter().zip(given) {
        if verdict.codes != 0 {
            if let Some(place) = places.next() {
                place.copy_from_slice(&reject_record(record, verdict));
            }
        }
    }
    if let Some(place) = places.next() {
        place.copy_from_slice(&reject_control(details, given, state));
    }
}

/// "columns 1–227, the six lowest codes rising in 228–239, the four characters of 17 in 240–243,
/// a space, column 245; unused places are spaces"
pub fn reject_record(record: &[u8], verdict: &Verdict) -> [u8; RECORD] {
    let mut reject = [SPACE; RECORD];
    columns_mut(&mut reject, 1, 227).copy_from_slice(columns(record, 1, 227));
    let codes = (0..64).filter(|&code| verdict.has(code)).take(6);
    for (place, code) in columns_mut(&mut reject, 228, 239)
        .chunks_exact_mut(2)
        .zip(codes)
    {
        place.copy_from_slice(&code_digits(code));
    }
    if let Some(stored) = verdict.stored {
        columns_mut(&mut reject, 240, 243).copy_from_slice(&stored);
    }
    reject[244] = column(record, 245);
    reject
}

/// Chart 0-2; "accepted includes warned"
fn reject_control(details: &[&[u8]], given: &[Verdict], state: [u8; 2]) -> [u8; RECORD] {
    let tally = |case_type: u8, test: fn(&Verdict) -> bool| -> u64 {
        details
            .iter()
            .zip(given)
            .filter(|(record, verdict)| of_case_type(record, case_type) && test(verdict))
            .count() as u64
    };
    let mut control = [SPACE; RECORD];
    columns_mut(&mut control, 1, 2).copy_from_slice(&state);
    columns_mut(&mut control, 3, 5).copy_from_slice(&ebcdic(b"CTL"));
    let numbers = [
        tally(b'A', |verdict| !verdict.rejected()),
        tally(b'A', Verdict::rejected),
        tally(b'N', |verdict| !verdict.rejected()),
        tally(b'N', Verdict::rejected),
        tally(b'A', Verdict::warned),
        tally(b'N', Verdict::warned),
    ];
    for (field, value) in columns_mut(&mut control, 6, 59)
        .chunks_exact_mut(9)
        .zip(numbers)
    {
        write_number(field, value);
    }
    control
}

/// Accepted, rejected and warned over both case types, and neither.
fn counts_of(details: &[&[u8]], given: &[Verdict]) -> Counts {
    let mut counts = Counts::default();
    for (record, verdict) in details.iter().zip(given) {
        if !of_case_type(record, b'A') && !of_case_type(record, b'N') {
            counts.neither += 1;
        } else if verdict.rejected() {
            counts.rejected += 1;
        } else {
            counts.accepted += 1;
            counts.warned += u64::from(verdict.warned());
        }
    }
    counts
}
