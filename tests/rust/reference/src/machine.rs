//! The one-case machine ("One-case machine" in document 01). By item 3 of document 02 it also reads
//! the names that the key's own B records give; they are the same at each step. By item 6 a row
//! has cents, which A, D and M set to 00.

use crate::errors::*;
use crate::row::{is_live, Row, DELETED, ROW};
use crate::text::{
    column, columns, columns_mut, ebcdic_byte, is_blank, is_listed, number, NO_LOCAL, SPACE,
};

/// "The verdict is the set of codes, and with 17 the four stored characters."
#[derive(Clone, Copy, Debug, PartialEq, Eq, Default)]
pub struct Verdict {
    /// The sum of 2 to the power c over the codes c.
    pub codes: u64,
    /// The stored 31–34 where 17 holds.
    pub stored: Option<Name>,
}

impl Verdict {
    pub fn has(&self, code: u32) -> bool {
        self.codes >> code & 1 == 1
    }

    /// One of 01 to 18 is in the set.
    pub fn rejected(&self) -> bool {
        (1..=18).any(|code| self.has(code))
    }

    /// The set has a warning, and so no error.
    pub fn warned(&self) -> bool {
        self.has(51) || self.has(52)
    }

    fn add(&mut self, code: u32, holds: bool) {
        if holds {
            self.codes |= 1 << code;
        }
    }
}

/// The set of codes of a record whose key's row is `row`.
pub fn judge(row: Option<&Row>, record: &[u8], names: &Names, around: &Surroundings) -> Verdict {
    let mut verdict = Verdict::default();
    verdict.add(1, error_01(record, around));
    verdict.add(2, error_02(record));
    verdict.add(3, error_03(record));
    verdict.add(4, error_04(record));
    verdict.add(5, error_05(record));
    verdict.add(18, error_18(record));
    // "With 03, only 01, 02, 04, 05, 18 are judged."
    if !verdict.has(3) {
        judge_by_type(&mut verdict, record, around);
        judge_by_row(&mut verdict, row, record, names);
    }
    // "Warnings come only without errors, and join the set."
    if !verdict.rejected() {
        let (local, name) = (warning_51(record, around), warning_52(record, row));
        verdict.add(51, local);
        verdict.add(52, name);
    }
    verdict
}

fn judge_by_type(verdict: &mut Verdict, record: &[u8], around: &Surroundings) {
    verdict.add(6, error_06(record));
    verdict.add(7, error_07(record));
    verdict.add(8, error_08(record));
    verdict.add(10, error_10(record, around));
    verdict.add(11, error_11(record));
    verdict.add(12, error_12(record));
    verdict.add(13, error_13(record, around));
    verdict.add(14, error_14(record));
    verdict.add(15, error_15(record));
    verdict.add(16, error_16(record));
}

fn judge_by_row(verdict: &mut Verdict, row: Option<&Row>, record: &[u8], names: &Names) {
    // "With 01, 02 or 04, 09 and 17 aren't."
    if verdict.has(1) || verdict.has(2) || verdict.has(4) {
        return;
    }
    verdict.add(9, error_09(record, row));
    // "17 isn't judged where 05 or 09 holds."
    if verdict.has(5) || verdict.has(9) {
        return;
    }
    if let Some(row) = live(row) {
        if error_17(record, row, names) {
            verdict.add(17, true);
            verdict.stored = Some(stored_name(row));
        }
    }
}

/// One step: the new row or none, and the verdict. "An error changes nothing."
pub fn step(
    row: Option<Row>,
    record: &[u8],
    names: &Names,
    around: &Surroundings,
) -> (Option<Row>, Verdict) {
    let verdict = judge(row.as_ref(), record, names, around);
    if verdict.rejected() {
        return (row, verdict);
    }
    (Some(changed(row, record, around)), verdict)
}

/// Copies columns of the record to columns of the row; both have the same width.
fn copy(row: &mut Row, to: (usize, usize), record: &[u8], from: (usize, usize)) {
    columns_mut(row, to.0, to.1).copy_from_slice(columns(record, from.0, from.1));
}

/// The row after a record without an error.
fn changed(row: Option<Row>, record: &[u8], around: &Surroundings) -> Row {
    if is_type(record, b"A") {
        return match row {
            Some(row) if is_live(&row) => recertified(row, record, around),
            _ => fresh(record, around),
        };
    }
    // Without error 09 there is a live row.
    let mut row = row.unwrap_or([SPACE; ROW]);
    if is_type(record, b"B") {
        put_names(&mut row, record);
    } else if is_type(record, b"C") {
        put_case_id(&mut row, record);
    } else if is_type(record, b"L") {
        // "local code, blank becoming 000"
        copy(&mut row, (13, 15), record, (3, 5));
        if is_blank(columns(record, 3, 5)) {
            columns_mut(&mut row, 13, 15).copy_from_slice(&NO_LOCAL);
        }
    } else if is_type(record, b"R") {
        put_exclusions(&mut row, record);
    } else if is_type(record, b"Z") {
        put_address(&mut row, record);
    } else if is_type(record, b"M") {
        // "arrearage; zero also deletes"
        put_arrearage(&mut row, record);
        if number(columns(record, 65, 72)) == Some(0) {
            row[195] = DELETED;
        }
    } else if is_type(record, b"D") {
        columns_mut(&mut row, 66, 73).fill(ebcdic_byte(b'0'));
        clear_cents(&mut row);
        row[195] = DELETED;
    } else if is_type(record, b"S") {
        // "payment year and amount replaced; arrearage kept"
        copy(&mut row, (79, 82), record, (80, 83));
        copy(&mut row, (83, 90), record, (65, 72));
    } else if is_type(record, b"T") {
        // "transfer state; transfer local code (77–79) unless blank"
        copy(&mut row, (74, 75), record, (75, 76));
        if !is_blank(columns(record, 77, 79)) {
            copy(&mut row, (76, 78), record, (77, 79));
        }
    }
    row
}

/// "A with no row, or a deleted one"
fn fresh(record: &[u8], around: &Surroundings) -> Row {
    let mut row = [SPACE; ROW];
    copy(&mut row, (1, 2), record, (1, 2));
    copy(&mut row, (3, 11), record, (6, 14));
    row[11] = column(record, 74);
    put_sent_local(&mut row, record, around);
    put_names(&mut row, record);
    put_arrearage(&mut row, record);
    put_case_id(&mut row, record);
    put_address(&mut row, record);
    put_date(&mut row, record);
    put_exclusions(&mut row, record);
    columns_mut(&mut row, 74, 78).fill(SPACE);
    columns_mut(&mut row, 79, 90).fill(ebcdic_byte(b'0'));
    row[195] = SPACE;
    row
}

/// A "on a live row"
fn recertified(mut row: Row, record: &[u8], around: &Surroundings) -> Row {
    put_sent_local(&mut row, record, around);
    put_names(&mut row, record);
    put_arrearage(&mut row, record);
    put_exclusions(&mut row, record);
    if !is_blank(columns(record, 15, 29)) {
        put_case_id(&mut row, record);
    }
    if !is_blank(columns(record, 180, 187)) {
        put_date(&mut row, record);
    }
    if !is_blank(columns(record, 84, 179)) {
        put_address(&mut row, record);
    }
    row
}

/// "Local code in both: as sent if listed, else 000."
fn put_sent_local(row: &mut Row, record: &[u8], around: &Surroundings) {
    if is_listed(columns(record, 3, 5), around.list) {
        copy(row, (13, 15), record, (3, 5));
    } else {
        columns_mut(row, 13, 15).copy_from_slice(&NO_LOCAL);
    }
}

fn put_names(row: &mut Row, record: &[u8]) {
    copy(row, (31, 50), record, (30, 49));
    copy(row, (51, 65), record, (50, 64));
}

/// The arrearage of A and M, in whole dollars.
fn put_arrearage(row: &mut Row, record: &[u8]) {
    copy(row, (66, 73), record, (65, 72));
    clear_cents(row);
}

/// "A, D and M set the cents to 00"
fn clear_cents(row: &mut Row) {
    columns_mut(row, 197, 198).fill(ebcdic_byte(b'0'));
}

fn put_case_id(row: &mut Row, record: &[u8]) {
    copy(row, (16, 30), record, (15, 29));
}

/// All five address fields.
fn put_address(row: &mut Row, record: &[u8]) {
    copy(row, (91, 120), record, (84, 113));
    copy(row, (121, 150), record, (114, 143));
    copy(row, (151, 175), record, (144, 168));
    copy(row, (176, 177), record, (169, 170));
    copy(row, (178, 186), record, (171, 179));
}

fn put_date(row: &mut Row, record: &[u8]) {
    copy(row, (187, 194), record, (180, 187));
}

fn put_exclusions(row: &mut Row, record: &[u8]) {
    row[194] = exclusion_set(record).unwrap_or(0);
}
