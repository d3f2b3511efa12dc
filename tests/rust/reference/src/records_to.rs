//! Document 02, item 11: the records that lead to a wanted case.

use std::collections::BTreeSet;

use crate::batch::{refusal_02, RECORD};
use crate::errors::{Names, Surroundings};
use crate::machine::step;
use crate::row::{row_sound, Row};
use crate::text::{column, columns, columns_mut, ebcdic_byte, COMMA, EXCLUSIONS, NO_LOCAL, SPACE};

/// Room for the four records that there may be.
pub const LEAST_OUTPUT: usize = 980;

pub type Record = [u8; RECORD];

/// A type of record, and the row's columns that it gives.
struct Kind {
    letter: u8,
    /// Columns whose difference asks for the record.
    asks: &'static [(usize, usize)],
    /// All columns that it may change.
    gives: &'static [(usize, usize)],
}

/// "write C, L, R and M, in that order, each only if its field differs (M also for the cents)"
const KINDS: [Kind; 4] = [
    Kind {
        letter: b'C',
        asks: &[(16, 30)],
        gives: &[(16, 30)],
    },
    Kind {
        letter: b'L',
        asks: &[(13, 15)],
        gives: &[(13, 15)],
    },
    Kind {
        letter: b'R',
        asks: &[(195, 195)],
        gives: &[(195, 195)],
    },
    Kind {
        letter: b'M',
        asks: &[(66, 73), (197, 198)],
        gives: &[(66, 73), (196, 196), (197, 198)],
    },
];

fn same(one: &Row, two: &Row, fields: &[(usize, usize)]) -> bool {
    let equal = |&(first, last)| columns(one, first, last) == columns(two, first, last);
    fields.iter().all(equal)
}

/// "with key, type, stored last name and that field, .. else blank": all but the field
fn start(row: &Row, letter: u8) -> Record {
    let mut record = [SPACE; RECORD];
    columns_mut(&mut record, 1, 2).copy_from_slice(columns(row, 1, 2));
    columns_mut(&mut record, 6, 14).copy_from_slice(columns(row, 3, 11));
    columns_mut(&mut record, 30, 49).copy_from_slice(columns(row, 31, 50));
    columns_mut(&mut record, 73, 73).fill(ebcdic_byte(letter));
    columns_mut(&mut record, 74, 74).fill(column(row, 12));
    record
}

/// "exclusions in bit order parted by commas"
fn put_set(record: &mut Record, set: u8) {
    let names = (0..8).filter(|bit| set >> bit & 1 == 1);
    let names: Vec<[u8; 3]> = names.map(|bit: usize| EXCLUSIONS[bit]).collect();
    let text = names.join(&COMMA);
    columns_mut(record, 188, 187 + text.len()).copy_from_slice(&text);
}

/// The record of a type with the wanted row's field.
fn record_for(kind: &Kind, row: &Row, wanted: &Row) -> Record {
    let mut record = start(row, kind.letter);
    match kind.letter {
        b'C' => columns_mut(&mut record, 15, 29).copy_from_slice(columns(wanted, 16, 30)),
        b'L' => columns_mut(&mut record, 3, 5).copy_from_slice(columns(wanted, 13, 15)),
        b'R' => put_set(&mut record, column(wanted, 195)),
        _ => columns_mut(&mut record, 65, 72).copy_from_slice(columns(wanted, 66, 73)),
    }
    record
}

/// Records of a type among which is one for every value that such a record can give its field, the
/// case ID and the amount apart: of those the wanted one is all that can help.
fn candidates(kind: &Kind, row: &Row, wanted: &Row, list: &[u8]) -> Vec<Record> {
    let mut records = vec![record_for(kind, row, wanted)];
    match kind.letter {
        b'L' => {
            let others = [&[SPACE; 3][..], &NO_LOCAL];
            for code in list.chunks(3).chain(others) {
                let mut record = start(row, kind.letter);
                columns_mut(&mut record, 3, 5).copy_from_slice(code);
                records.push(record);
            }
        }
        b'R' => {
            for set in 0..=255 {
                let mut record = start(row, kind.letter);
                put_set(&mut record, set);
                records.push(record);
            }
        }
        _ => {}
    }
    records
}

/// The machine's step "under a control record of the row's state"; none where it finds an error.
fn led(row: &Row, record: &Record, list: &[u8]) -> Option<Row> {
    let around = Surroundings {
        state: [column(row, 1), column(row, 2)],
        // These types read no year.
        year: 2007,
        list,
    };
    let (after, verdict) = step(Some(*row), record, &Names::new(), &around);
    after.filter(|_| !verdict.rejected())
}

/// The rows that lists of records lead to, as far as they may help: a list's last record of each type
/// must give its field as wanted, and the ones before it of that type can be left out.
fn reachable(row: &Row, wanted: &Row, list: &[u8]) -> BTreeSet<Row> {
    let mut helpful = Vec::new();
    for kind in &KINDS {
        let gives_wanted = |record: &Record| {
            let after = led(row, record, list);
            after.is_some_and(|after| same(&after, wanted, kind.gives))
        };
        let mut records = candidates(kind, row, wanted, list);
        records.retain(gives_wanted);
        helpful.extend(records);
    }
    let mut reached = BTreeSet::from([*row]);
    let mut waiting = vec![*row];
    while let Some(present) = waiting.pop() {
        for next in helpful.iter().filter_map(|one| led(&present, one, list)) {
            if reached.insert(next) {
                waiting.push(next);
            }
        }
    }
    reached
}

/// 29: "exactly if no list of C, L, R and M records of that key, the empty list counted, does"
pub fn refusal_29(row: &Row, wanted: &Row, list: &[u8]) -> bool {
    !reachable(row, wanted, list).contains(wanted)
}

/// A sound row of an argument; one that isn't of 200 bytes is unsound.
fn sound(bytes: &[u8]) -> Option<Row> {
    let row: Row = bytes.try_into().ok()?;
    row_sound(&row).then_some(row)
}

/// Writes the records from a row to a wanted one: how many. Err holds the refusal's number.
pub fn records_to(row: &[u8], wanted: &[u8], list: &[u8], out: &mut [u8]) -> Result<u64, u64> {
    if refusal_02(list) {
        return Err(2);
    }
    let row = sound(row).ok_or(4u64)?;
    let wanted = sound(wanted).ok_or(4u64)?;
    if refusal_29(&row, &wanted, list) {
        return Err(29);
    }
    // "30, an output below 980 bytes"
    if out.len() < LEAST_OUTPUT {
        return Err(30);
    }
    let asked = KINDS.iter().filter(|kind| !same(&row, &wanted, kind.asks));
    let mut records = 0;
    for (kind, place) in asked.zip(out.chunks_exact_mut(RECORD)) {
        place.copy_from_slice(&record_for(kind, &row, &wanted));
        records += 1;
    }
    Ok(records)
}
