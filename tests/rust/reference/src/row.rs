//! A case's row and the master ("A case's row" in document 01, with item 6 of document 02).

use crate::errors::{case_type_wrong, name_wrong, ssn_wrong};
use crate::limits::MOST;
use crate::text::{all_digits, column, columns, ebcdic_byte, in_state_table, is_blank, SPACE};

pub const ROW: usize = 200;
pub const DELETED: u8 = ebcdic_byte(b'D');

pub type Row = [u8; ROW];
pub type Key = [u8; 12];

/// "1–2 state, 3–11 SSN, 12 case type (these twelve are the key)"
pub fn row_key(row: &[u8]) -> Key {
    let mut key = [SPACE; 12];
    key.copy_from_slice(columns(row, 1, 12));
    key
}

/// The row is live: its status is a space.
pub fn is_live(row: &[u8]) -> bool {
    column(row, 196) == SPACE
}

/// "a key free of errors 01, 02 and 04 (any state of the table)"
pub fn key_sound(key: &[u8]) -> bool {
    key.len() == 12
        && in_state_table(columns(key, 1, 2))
        && !ssn_wrong(columns(key, 3, 11))
        && !case_type_wrong(column(key, 12))
}

/// "Status is a space (live) or D (deleted)", D exactly when nothing is owed.
fn status_sound(row: &[u8], nothing_owed: bool) -> bool {
    column(row, 196) == if nothing_owed { DELETED } else { SPACE }
}

fn is_zero(field: &[u8]) -> bool {
    field.iter().all(|&byte| byte == 0xF0)
}

/// What the old row and the new one have in common.
fn fields_sound(row: &[u8]) -> bool {
    key_sound(columns(row, 1, 12))
        && all_digits(columns(row, 13, 15))
        && all_digits(columns(row, 66, 73))
        && all_digits(columns(row, 79, 90))
        && !name_wrong(columns(row, 31, 34), true)
}

/// Document 01: "197–200 spaces", "D exactly when the arrearage is zero".
pub fn old_row_sound(row: &[u8]) -> bool {
    fields_sound(row)
        && is_blank(columns(row, 197, 200))
        && status_sound(row, is_zero(columns(row, 66, 73)))
}

/// Item 6 of document 02: "The row's 197–198 become its cents, two digits, with 199–200 spaces";
/// "deleted exactly when both parts are zero".
pub fn row_sound(row: &[u8]) -> bool {
    let nothing_owed = is_zero(columns(row, 66, 73)) && is_zero(columns(row, 197, 198));
    fields_sound(row)
        && all_digits(columns(row, 197, 198))
        && is_blank(columns(row, 199, 200))
        && status_sound(row, nothing_owed)
}

/// The master's rows, the bytes behind the row count left out.
pub fn rows_of(master: &[u8], rows: usize) -> impl Iterator<Item = &[u8]> {
    master.chunks_exact(ROW).take(rows)
}

/// 3: "master length no multiple of 200, or row count above length ÷ 200" or the limit
pub fn refusal_03(master: &[u8], rows: usize) -> bool {
    !master.len().is_multiple_of(ROW) || rows > master.len() / ROW || rows > MOST
}

/// A row that isn't sound, or rows not in strictly rising order of key.
fn unsound(master: &[u8], rows: usize, sound: fn(&[u8]) -> bool) -> bool {
    let mut before: Option<Key> = None;
    for row in rows_of(master, rows) {
        let key = row_key(row);
        if !sound(row) || before.is_some_and(|earlier| earlier >= key) {
            return true;
        }
        before = Some(key);
    }
    false
}

/// 4: "an unsound row or order"
pub fn refusal_04(master: &[u8], rows: usize) -> bool {
    unsound(master, rows, row_sound)
}

/// 4 "over the old row"
pub fn refusal_04_old(master: &[u8], rows: usize) -> bool {
    unsound(master, rows, old_row_sound)
}
