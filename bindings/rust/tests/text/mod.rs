//! Text in EBCDIC, and the example batch of document 01.
#![allow(dead_code)] // each test uses a part

/// The EBCDIC byte of a capital letter, digit, hyphen or comma; a space for any other.
fn byte(c: u8) -> u8 {
    match c {
        b'A'..=b'I' => 0xC1 + (c - b'A'),
        b'J'..=b'R' => 0xD1 + (c - b'J'),
        b'S'..=b'Z' => 0xE2 + (c - b'S'),
        b'0'..=b'9' => 0xF0 + (c - b'0'),
        b'-' => 0x60,
        b',' => 0x6B,
        _ => 0x40,
    }
}

/// A text in EBCDIC.
pub fn ebcdic(text: &str) -> Vec<u8> {
    text.bytes().map(byte).collect()
}

/// Bytes with texts from columns on, spaces elsewhere.
pub fn filled(width: usize, fields: &[(usize, &str)]) -> Vec<u8> {
    let mut bytes = vec![0x40; width];
    for (column, text) in fields {
        bytes[column - 1..column - 1 + text.len()].copy_from_slice(&ebcdic(text));
    }
    bytes
}

/// A record of 245 bytes with texts from columns on, spaces elsewhere.
pub fn record(fields: &[(usize, &str)]) -> Vec<u8> {
    filled(245, fields)
}

/// A for SMITH JOHN of 25 dollars, M for SMYTH of 100, and the control record with totals 0, 2, 0, 125.
pub fn paper_batch() -> Vec<u8> {
    let a = record(&[
        (1, "OH"),
        (6, "123456789"),
        (30, "SMITH"),
        (50, "JOHN"),
        (65, "00000025"),
        (73, "AN"),
    ]);
    let m = record(&[
        (1, "OH"),
        (6, "123456789"),
        (30, "SMYTH"),
        (65, "00000100"),
        (73, "MN"),
    ]);
    let control = record(&[
        (1, "OHCTL"),
        (6, "000000000"),
        (15, "000000002"),
        (24, "00000000000"),
        (35, "00000000125"),
    ]);
    [a, m, control].concat()
}
