//! Item 7 of document 02: ADM means all three, worked by hand. The bits, lowest first, are ADM RET
//! VEN SAL TAX PAS FIN DCK.

use super::{add, live_row, put, record, worked};
use crate::batch::RECORD;
use crate::errors::exclusion_set;
use crate::lookup::reconcile;
use crate::row::{row_sound, Row};
use crate::text::{ebcdic, SPACE};

/// An R record with words in its exclusion field.
fn replace(words: &str) -> [u8; RECORD] {
    let mut record = record("R", "SMITH", "");
    put(&mut record, 188, words);
    record
}

/// The live row with a set.
fn with_set(set: u8) -> Row {
    let mut row = live_row();
    row[194] = set;
    row
}

const FIELDS: [(&str, u8); 12] = [
    ("", 0),
    ("ADM", 0b0000_1111),
    ("ADM ADM,ADM", 0b0000_1111),
    ("TAX,ADM", 0b0001_1111),
    ("ADM RET", 0b0000_1111),
    ("SAL ADM DCK", 0b1000_1111),
    ("RET VEN SAL ADM", 0b0000_1111),
    // The three don't mean ADM, and none of them means the others.
    ("RET,SAL,VEN", 0b0000_1110),
    ("RET", 0b0000_0010),
    ("VEN", 0b0000_0100),
    ("SAL", 0b0000_1000),
    ("TAX PAS FIN DCK", 0b1111_0000),
];

#[test]
fn read_wider() {
    for (words, set) in FIELDS {
        assert_eq!(exclusion_set(&replace(words)), Some(set), "{words}");
    }
    for words in ["ADMX", "ADM XYZ", "RETADM", "AD M"] {
        assert_eq!(exclusion_set(&replace(words)), None, "{words}");
    }
}

#[test]
fn stored_by_a_and_r() {
    for (words, set) in FIELDS {
        let mut sent = add("00000025");
        put(&mut sent, 188, words);
        for (row, record) in [
            (None, sent),
            (Some(with_set(0b0110_0001)), sent),
            (Some(with_set(0b0110_0001)), replace(words)),
        ] {
            let (after, verdict) = worked(row, &record);
            assert_eq!((after.unwrap()[194], verdict.codes), (set, 0), "{words}");
        }
    }
}

#[test]
fn a_stored_set_is_kept() {
    let row = with_set(1);
    assert!(row_sound(&row));
    let (after, verdict) = worked(Some(row), &record("M", "SMITH", "00000100"));
    assert_eq!((after.unwrap()[194], verdict.codes), (1, 0));
    // A wrong word behind ADM stores nothing.
    let (after, verdict) = worked(Some(row), &replace("ADM XYZ"));
    assert_eq!((after, verdict.codes), (Some(row), 1 << 16));
}

#[test]
fn printed_as_stored() {
    let mut date = [SPACE; 8];
    put(&mut date, 1, "20070131");
    for (set, names) in [
        (0b0000_0001, "ADM                     "),
        (0b0000_0101, "ADM   VEN               "),
        (0b0000_1111, "ADMRETVENSAL            "),
        (0b0000_1110, "   RETVENSAL            "),
    ] {
        let mut out = [0; 2 * RECORD];
        let state = ebcdic(b"OH");
        assert_eq!(reconcile(&with_set(set), 1, &state, &date, &mut out), Ok(1));
        let mut expected = [SPACE; 24];
        put(&mut expected, 1, names);
        assert_eq!(out[81..105], expected);
    }
}
