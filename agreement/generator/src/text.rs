//! EBCDIC text and fields; columns count from 1.

pub const SPACE: u8 = 0x40;
pub const STATES: [&str; 54] = [
    "AK", "AL", "AR", "AZ", "CA", "CO", "CT", "DC", "DE", "FL", "GA", "GU", "HI", "IA", "ID", "IL",
    "IN", "KS", "KY", "LA", "MA", "MD", "ME", "MI", "MN", "MO", "MS", "MT", "NC", "ND", "NE", "NH",
    "NJ", "NM", "NV", "NY", "OH", "OK", "OR", "PA", "PR", "RI", "SC", "SD", "TN", "TX", "UT", "VA",
    "VI", "VT", "WA", "WI", "WV", "WY",
];
pub const WORDS: [&str; 8] = ["ADM", "RET", "VEN", "SAL", "TAX", "PAS", "FIN", "DCK"];

/// Bytes at which a test for letters, digits or spaces may go wrong.
pub const EDGES: [u8; 40] = [
    0x00, 0x01, 0x20, 0x2C, 0x2D, 0x30, 0x39, 0x3F, 0x40, 0x41, 0x4B, 0x5F, 0x60, 0x61, 0x6A, 0x6B,
    0x6C, 0x7F, 0x80, 0x81, 0x89, 0x91, 0xA2, 0xC0, 0xC1, 0xC9, 0xCA, 0xCF, 0xD0, 0xD1, 0xD9, 0xDA,
    0xE0, 0xE1, 0xE2, 0xE9, 0xEA, 0xEF, 0xF0, 0xFA,
];

/// The EBCDIC byte of an ordinary character; a small letter becomes one too (81 and on).
pub fn byte(character: u8) -> u8 {
    match character {
        b'A'..=b'I' => character - b'A' + 0xC1,
        b'J'..=b'R' => character - b'J' + 0xD1,
        b'S'..=b'Z' => character - b'S' + 0xE2,
        b'a'..=b'i' => character - b'a' + 0x81,
        b'j'..=b'r' => character - b'j' + 0x91,
        b's'..=b'z' => character - b's' + 0xA2,
        b'0'..=b'9' => character - b'0' + 0xF0,
        b'-' => 0x60,
        b',' => 0x6B,
        b'.' => 0x4B,
        b'/' => 0x61,
        b'(' => 0x4D,
        b')' => 0x5D,
        _ => SPACE,
    }
}

pub fn text(ordinary: &str) -> Vec<u8> {
    ordinary.bytes().map(byte).collect()
}

pub fn state(name: &str) -> [u8; 2] {
    let name = text(name);
    [name[0], name[1]]
}

/// Bytes shown in ordinary characters, `?` where there is none.
pub fn shown(bytes: &[u8]) -> String {
    bytes
        .iter()
        .map(|&shown| {
            (b' '..=b'z')
                .filter(|character| {
                    character.is_ascii_alphanumeric() || b" -,./()".contains(character)
                })
                .find(|&character| byte(character) == shown)
                .map_or('?', char::from)
        })
        .collect()
}

/// Writes bytes from a column on.
pub fn put(record: &mut [u8], column: usize, bytes: &[u8]) {
    record[column - 1..column - 1 + bytes.len()].copy_from_slice(bytes);
}

/// Writes ordinary characters from a column on.
pub fn put_text(record: &mut [u8], column: usize, ordinary: &str) {
    put(record, column, &text(ordinary));
}

/// Fills columns `first` to `last` with spaces.
pub fn blank(record: &mut [u8], first: usize, last: usize) {
    record[first - 1..last].fill(SPACE);
}

/// A number in digits over a width, the higher digits cut off.
pub fn digits(number: u64, width: usize) -> Vec<u8> {
    let mut rest = number;
    let mut field = vec![0xF0; width];
    for byte in field.iter_mut().rev() {
        *byte = 0xF0 + (rest % 10) as u8;
        rest /= 10;
    }
    field
}

/// Columns 65–72 and the like, if digits.
pub fn number(field: &[u8]) -> Option<u64> {
    field.iter().try_fold(0, |sum: u64, byte| match byte {
        0xF0..=0xF9 => Some(sum * 10 + u64::from(byte - 0xF0)),
        _ => None,
    })
}
