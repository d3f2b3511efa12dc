//! Characters, the state table, numbers and dates ("Characters" in document 01).

pub const SPACE: u8 = 0x40;
pub const HYPHEN: u8 = 0x60;
pub const COMMA: u8 = 0x6B;

/// The EBCDIC byte of an upper case letter, digit, space, hyphen or comma.
pub const fn ebcdic_byte(character: u8) -> u8 {
    match character {
        b'A'..=b'I' => 0xC1 + (character - b'A'),
        b'J'..=b'R' => 0xD1 + (character - b'J'),
        b'S'..=b'Z' => 0xE2 + (character - b'S'),
        b'0'..=b'9' => 0xF0 + (character - b'0'),
        b'-' => HYPHEN,
        b',' => COMMA,
        _ => SPACE,
    }
}

/// Ordinary letters as EBCDIC bytes.
pub const fn ebcdic<const N: usize>(text: &[u8; N]) -> [u8; N] {
    let mut bytes = [SPACE; N];
    let mut at = 0;
    while at < N {
        bytes[at] = ebcdic_byte(text[at]);
        at += 1;
    }
    bytes
}

/// "Letters are C1–C9, D1–D9, E2–E9."
pub fn is_letter(byte: u8) -> bool {
    matches!(byte, 0xC1..=0xC9 | 0xD1..=0xD9 | 0xE2..=0xE9)
}

/// "digits F0–F9"
pub fn is_digit(byte: u8) -> bool {
    matches!(byte, 0xF0..=0xF9)
}

pub fn all_digits(field: &[u8]) -> bool {
    field.iter().all(|&byte| is_digit(byte))
}

/// Every byte of the field is a space.
pub fn is_blank(field: &[u8]) -> bool {
    field.iter().all(|&byte| byte == SPACE)
}

/// Columns `first` to `last` of a row or record; columns count from 1.
pub fn columns(record: &[u8], first: usize, last: usize) -> &[u8] {
    &record[first - 1..last]
}

/// The same columns, to be written.
pub fn columns_mut(record: &mut [u8], first: usize, last: usize) -> &mut [u8] {
    &mut record[first - 1..last]
}

/// One column.
pub fn column(record: &[u8], place: usize) -> u8 {
    record[place - 1]
}

/// The number that a field of digits stands for; no field has more than fifteen.
pub fn number(field: &[u8]) -> Option<u64> {
    if !all_digits(field) {
        return None;
    }
    let mut value: u64 = 0;
    for &byte in field {
        value = value * 10 + u64::from(byte - 0xF0);
    }
    Some(value)
}

/// Writes a number over the whole width of a field, leading zeros included.
pub fn write_number(field: &mut [u8], number: u64) {
    let mut rest = number;
    for byte in field.iter_mut().rev() {
        *byte = 0xF0 + (rest % 10) as u8;
        rest /= 10;
    }
}

const STATES_TEXT: &[u8; 108] = b"AKALARAZCACOCTDCDEFLGAGUHIIAIDILINKSKYLAMAMDMEMIMNMOMSMTNCNDNENHNJNMNVNYOHOKORPAPRRISCSDTNTXUTVAVIVTWAWIWVWY";

/// The state table, two EBCDIC bytes per state.
pub const STATES: [u8; 108] = ebcdic(STATES_TEXT);

/// Two bytes that name a state of the table.
pub fn in_state_table(state: &[u8]) -> bool {
    state.len() == 2 && STATES.chunks(2).any(|entry| entry == state)
}

/// A Gregorian date CCYYMMDD of 1900–9999.
pub fn is_date(field: &[u8]) -> bool {
    if field.len() != 8 {
        return false;
    }
    let (Some(year), Some(month), Some(day)) = (
        number(columns(field, 1, 4)),
        number(columns(field, 5, 6)),
        number(columns(field, 7, 8)),
    ) else {
        return false;
    };
    (1900..=9999).contains(&year)
        && (1..=12).contains(&month)
        && (1..=days_in(year, month)).contains(&day)
}

fn days_in(year: u64, month: u64) -> u64 {
    let leap = year.is_multiple_of(4) && (!year.is_multiple_of(100) || year.is_multiple_of(400));
    match month {
        2 if leap => 29,
        2 => 28,
        4 | 6 | 9 | 11 => 30,
        _ => 31,
    }
}

/// The eight exclusion words, lowest bit first.
pub const EXCLUSIONS: [[u8; 3]; 8] = [
    ebcdic(b"ADM"),
    ebcdic(b"RET"),
    ebcdic(b"VEN"),
    ebcdic(b"SAL"),
    ebcdic(b"TAX"),
    ebcdic(b"PAS"),
    ebcdic(b"FIN"),
    ebcdic(b"DCK"),
];

/// Local code of zeros.
pub const NO_LOCAL: [u8; 3] = ebcdic(b"000");

/// The code is one of the list, three bytes each.
pub fn is_listed(code: &[u8], list: &[u8]) -> bool {
    list.chunks(3).any(|entry| entry == code)
}
