//! A record's errors and warnings ("A record's errors" in document 01, with items 3 and 7 of document
//! 02), a function each.

use std::collections::BTreeSet;

use crate::row::{is_live, Row};
use crate::text::{
    all_digits, column, columns, ebcdic_byte, in_state_table, is_blank, is_date, is_digit,
    is_letter, is_listed, number, COMMA, EXCLUSIONS, HYPHEN, NO_LOCAL, SPACE,
};

/// What a step reads besides the record and its row.
#[derive(Clone, Copy, Debug)]
pub struct Surroundings<'a> {
    /// The control record's state.
    pub state: [u8; 2],
    pub year: u64,
    pub list: &'a [u8],
}

/// The first four characters of a last name.
pub type Name = [u8; 4];

/// The names that the B records of a key give.
pub type Names = BTreeSet<Name>;

/// The record's type (column 73) is one of these letters.
pub fn is_type(record: &[u8], letters: &[u8]) -> bool {
    letters
        .iter()
        .any(|&letter| ebcdic_byte(letter) == column(record, 73))
}

/// The live row, if there is one.
pub fn live(row: Option<&Row>) -> Option<&Row> {
    row.filter(|row| is_live(&row[..]))
}

/// "state not in the table, or not the control record's"
pub fn error_01(record: &[u8], around: &Surroundings) -> bool {
    let state = columns(record, 1, 2);
    !in_state_table(state) || state != around.state
}

/// "SSN not nine digits, or all zero; or below area 900 with area 000 or 666, group 00 or
/// serial 0000"
pub fn ssn_wrong(ssn: &[u8]) -> bool {
    let (Some(area), Some(group), Some(serial)) = (
        number(columns(ssn, 1, 3)),
        number(columns(ssn, 4, 5)),
        number(columns(ssn, 6, 9)),
    ) else {
        return true;
    };
    let all_zero = area == 0 && group == 0 && serial == 0;
    all_zero || area < 900 && (area == 0 || area == 666 || group == 0 || serial == 0)
}

pub fn error_02(record: &[u8]) -> bool {
    ssn_wrong(columns(record, 6, 14))
}

/// "type (73) none of A B C D L M R S T Z"
pub fn error_03(record: &[u8]) -> bool {
    !is_type(record, b"ABCDLMRSTZ")
}

/// "case type neither A (TANF) nor N (Non-TANF)"
pub fn case_type_wrong(case_type: u8) -> bool {
    case_type != ebcdic_byte(b'A') && case_type != ebcdic_byte(b'N')
}

pub fn error_04(record: &[u8]) -> bool {
    case_type_wrong(column(record, 74))
}

/// "aren't one or more letters or hyphens with only spaces behind; for A and B also without a
/// letter"
pub fn name_wrong(four: &[u8], letter_asked: bool) -> bool {
    let name = four
        .iter()
        .take_while(|&&byte| is_letter(byte) || byte == HYPHEN)
        .count();
    let without_letter = !four.iter().any(|&byte| is_letter(byte));
    name == 0 || !is_blank(&four[name..]) || letter_asked && without_letter
}

pub fn error_05(record: &[u8]) -> bool {
    name_wrong(columns(record, 30, 33), is_type(record, b"AB"))
}

/// "(A, B): 50 not a letter"
pub fn error_06(record: &[u8]) -> bool {
    is_type(record, b"AB") && !is_letter(column(record, 50))
}

/// "(A, M, S): 65–72 not eight digits"
pub fn error_07(record: &[u8]) -> bool {
    is_type(record, b"AMS") && !all_digits(columns(record, 65, 72))
}

/// "(A): digits, below 25"
pub fn error_08(record: &[u8]) -> bool {
    is_type(record, b"A") && number(columns(record, 65, 72)).is_some_and(|amount| amount < 25)
}

/// "(all but A): no live row with this key"
pub fn error_09(record: &[u8], row: Option<&Row>) -> bool {
    !is_type(record, b"A") && live(row).is_none()
}

/// The local code is neither spaces, 000 nor listed.
fn local_unknown(record: &[u8], around: &Surroundings) -> bool {
    let code = columns(record, 3, 5);
    !is_blank(code) && code != NO_LOCAL && !is_listed(code, around.list)
}

/// "(L): local code (3–5) neither spaces, 000 nor listed"
pub fn error_10(record: &[u8], around: &Surroundings) -> bool {
    is_type(record, b"L") && local_unknown(record, around)
}

/// "(C): case ID (15–29) all spaces"
pub fn error_11(record: &[u8]) -> bool {
    is_type(record, b"C") && is_blank(columns(record, 15, 29))
}

/// "(T): 75–76 not in the table"
pub fn error_12(record: &[u8]) -> bool {
    is_type(record, b"T") && !in_state_table(columns(record, 75, 76))
}

/// "(S): 80–83 not four digits Y with year − 7 ≤ Y ≤ year"
pub fn error_13(record: &[u8], around: &Surroundings) -> bool {
    is_type(record, b"S")
        && !number(columns(record, 80, 83))
            .is_some_and(|paid| paid + 7 >= around.year && paid <= around.year)
}

/// "A right ZIP is nine digits, or five and four spaces."
fn zip_right(zip: &[u8]) -> bool {
    all_digits(zip) || all_digits(columns(zip, 1, 5)) && is_blank(columns(zip, 6, 9))
}

/// "(Z): both lines blank, city blank, state not in the table, or ZIP wrong. (A): a state or ZIP
/// that isn't blank and is wrong."
pub fn error_14(record: &[u8]) -> bool {
    let lines_blank = is_blank(columns(record, 84, 113)) && is_blank(columns(record, 114, 143));
    let city_blank = is_blank(columns(record, 144, 168));
    let state = columns(record, 169, 170);
    let zip = columns(record, 171, 179);
    let state_wrong = !in_state_table(state);
    let zip_wrong = !zip_right(zip);
    if is_type(record, b"Z") {
        lines_blank || city_blank || state_wrong || zip_wrong
    } else if is_type(record, b"A") {
        !is_blank(state) && state_wrong || !is_blank(zip) && zip_wrong
    } else {
        false
    }
}

/// "(A): 180–187 neither blank nor a Gregorian date CCYYMMDD of 1900–9999"
pub fn error_15(record: &[u8]) -> bool {
    let date = columns(record, 180, 187);
    is_type(record, b"A") && !is_blank(date) && !is_date(date)
}

/// Item 7 of document 02: "Where an exclusion field names ADM, its set now has RET, SAL and VEN as
/// well". The bits are ADM RET VEN SAL, lowest first.
fn widened(named: u8) -> u8 {
    const ADM: u8 = 0b0001;
    const RET_VEN_SAL: u8 = 0b1110;
    if named & ADM == ADM {
        named | RET_VEN_SAL
    } else {
        named
    }
}

/// "commas and spaces divide 188–227 into words; empty words are skipped; the reading stops at
/// the first word that isn't one of the eight. Repeats count once." None stands for such a word.
pub fn exclusion_set(record: &[u8]) -> Option<u8> {
    let mut set = 0;
    for word in columns(record, 188, 227).split(|&byte| byte == COMMA || byte == SPACE) {
        if word.is_empty() {
            continue;
        }
        let bit = EXCLUSIONS.iter().position(|name| name == word)?;
        set |= 1 << bit;
    }
    Some(widened(set))
}

/// "(A, R)": a word that isn't one of the eight
pub fn error_16(record: &[u8]) -> bool {
    is_type(record, b"AR") && exclusion_set(record).is_none()
}

/// A record's columns 30–33.
pub fn record_name(record: &[u8]) -> Name {
    let mut name = [SPACE; 4];
    name.copy_from_slice(columns(record, 30, 33));
    name
}

/// A row's columns 31–34.
pub fn stored_name(row: &Row) -> Name {
    let mut name = [SPACE; 4];
    name.copy_from_slice(columns(row, 31, 34));
    name
}

/// The name that a record gives: "any B record .. that has none of errors 01 to 06 or 18".
pub fn given_name(record: &[u8], around: &Surroundings) -> Option<Name> {
    let wrong = error_01(record, around)
        || error_02(record)
        || error_03(record)
        || error_04(record)
        || error_05(record)
        || error_06(record)
        || error_18(record);
    (is_type(record, b"B") && !wrong).then(|| record_name(record))
}

/// "For types other than A and B, columns 30–33 may match the stored name, or those of any B
/// record of the same key"; "error 17 holds exactly if all differ".
pub fn error_17(record: &[u8], row: &Row, names: &Names) -> bool {
    let name = record_name(record);
    !is_type(record, b"AB") && name != stored_name(row) && !names.contains(&name)
}

/// "228–244 not spaces"
pub fn error_18(record: &[u8]) -> bool {
    !is_blank(columns(record, 228, 244))
}

/// "(A): local code neither blank, 000 nor listed"
pub fn warning_51(record: &[u8], around: &Surroundings) -> bool {
    is_type(record, b"A") && local_unknown(record, around)
}

/// "(A): first or last name differs from a live row's"
pub fn warning_52(record: &[u8], row: Option<&Row>) -> bool {
    is_type(record, b"A")
        && live(row).is_some_and(|row| {
            columns(record, 30, 49) != columns(row, 31, 50)
                || columns(record, 50, 64) != columns(row, 51, 65)
        })
}

/// A digit pair for a code, as written in the reject record.
pub fn code_digits(code: u32) -> [u8; 2] {
    let digits = [0xF0 + (code / 10 % 10) as u8, 0xF0 + (code % 10) as u8];
    debug_assert!(digits.iter().all(|&byte| is_digit(byte)));
    digits
}
