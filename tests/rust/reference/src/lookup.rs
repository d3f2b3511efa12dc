//! Finding a case and reconciliation (the sections of these names in document 01).

use crate::batch::{refusal_11, RECORD};
use crate::row::{is_live, key_sound, refusal_03, refusal_04, rows_of};
use crate::text::{
    column, columns, columns_mut, ebcdic, ebcdic_byte, in_state_table, is_date, write_number,
    EXCLUSIONS, SPACE,
};

/// "14 key unsound"
pub fn refusal_14(key: &[u8]) -> bool {
    !key_sound(key)
}

/// "12 state not in the table"
pub fn refusal_12(state: &[u8]) -> bool {
    !in_state_table(state)
}

/// "13 no calendar date as in error 15, blank included"
pub fn refusal_13(date: &[u8]) -> bool {
    !is_date(date)
}

/// "The place of the key's row, deleted or not, the first being 0." Err holds the refusal.
pub fn find(master: &[u8], rows: usize, key: &[u8]) -> Result<u64, u64> {
    if refusal_03(master, rows) {
        return Err(3);
    }
    if refusal_04(master, rows) {
        return Err(4);
    }
    if refusal_14(key) {
        return Err(14);
    }
    // "15 no such row"
    rows_of(master, rows)
        .position(|row| columns(row, 1, 12) == key)
        .map(|place| place as u64)
        .ok_or(15)
}

/// The REC records of a state and the RCT behind them; the result is the number of RECs.
pub fn reconcile(
    master: &[u8],
    rows: usize,
    state: &[u8],
    date: &[u8],
    out: &mut [u8],
) -> Result<u64, u64> {
    if refusal_03(master, rows) {
        return Err(3);
    }
    if refusal_04(master, rows) {
        return Err(4);
    }
    if refusal_12(state) {
        return Err(12);
    }
    if refusal_13(date) {
        return Err(13);
    }
    // "a REC record per live row of that state, in key order"
    let cases: Vec<&[u8]> = rows_of(master, rows)
        .filter(|row| is_live(row) && columns(row, 1, 2) == state)
        .collect();
    if refusal_11(out, cases.len()) {
        return Err(11);
    }
    let mut places = out.chunks_exact_mut(RECORD);
    for row in &cases {
        if let Some(place) = places.next() {
            place.copy_from_slice(&rec(row));
        }
    }
    if let Some(place) = places.next() {
        place.copy_from_slice(&rct(&cases, state, date));
    }
    Ok(cases.len() as u64)
}

/// Chart 0-6: "fields as in the row, first name cut to ten, 80–81 blank"
fn rec(row: &[u8]) -> [u8; RECORD] {
    let mut record = [SPACE; RECORD];
    let mut copy = |to: (usize, usize), from: (usize, usize)| {
        columns_mut(&mut record, to.0, to.1).copy_from_slice(columns(row, from.0, from.1));
    };
    copy((4, 5), (1, 2));
    copy((6, 8), (13, 15));
    copy((9, 17), (3, 11));
    copy((18, 32), (16, 30));
    copy((33, 52), (31, 50));
    copy((53, 62), (51, 60));
    copy((63, 70), (66, 73));
    copy((71, 71), (12, 12));
    copy((72, 79), (187, 194));
    columns_mut(&mut record, 1, 3).copy_from_slice(&ebcdic(b"REC"));
    let set = column(row, 195);
    let fields = columns_mut(&mut record, 82, 105).chunks_exact_mut(3);
    for (bit, (field, name)) in fields.zip(&EXCLUSIONS).enumerate() {
        if set >> bit & 1 == 1 {
            field.copy_from_slice(name);
        }
    }
    record
}

/// Chart 0-7
fn rct(cases: &[&[u8]], state: &[u8], date: &[u8]) -> [u8; RECORD] {
    let tanf = cases
        .iter()
        .filter(|row| column(row, 12) == ebcdic_byte(b'A'))
        .count() as u64;
    let all = cases.len() as u64;
    let mut record = [SPACE; RECORD];
    columns_mut(&mut record, 1, 3).copy_from_slice(&ebcdic(b"RCT"));
    columns_mut(&mut record, 4, 5).copy_from_slice(state);
    write_number(columns_mut(&mut record, 6, 14), tanf);
    write_number(columns_mut(&mut record, 15, 23), all - tanf);
    write_number(columns_mut(&mut record, 24, 32), all);
    columns_mut(&mut record, 33, 40).copy_from_slice(date);
    record
}
