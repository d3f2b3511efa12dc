//! The paper's example, its table (a)–(j), and the edges of the refusals.

mod contacts;
mod control;
mod exclusions;
mod journal;
mod many;
mod merge;
mod names;
mod pages;
mod posting;
mod records_to;
mod several;
mod totals;

use crate::batch::{apply, Counts, RECORD};
use crate::errors::{Names, Surroundings};
use crate::lookup::{find, reconcile};
use crate::machine::{judge, step, Verdict};
use crate::row::{row_sound, Row, ROW};
use crate::text::{ebcdic_byte, is_letter, write_number, SPACE, STATES};

/// Writes ordinary letters from a column on.
fn put(record: &mut [u8], place: usize, text: &str) {
    for (byte, character) in record[place - 1..].iter_mut().zip(text.bytes()) {
        *byte = ebcdic_byte(character);
    }
}

fn record(kind: &str, name: &str, amount: &str) -> [u8; RECORD] {
    let mut record = [SPACE; RECORD];
    put(&mut record, 1, "OH");
    put(&mut record, 6, "123456789");
    put(&mut record, 30, name);
    put(&mut record, 65, amount);
    put(&mut record, 73, kind);
    put(&mut record, 74, "N");
    record
}

fn add(amount: &str) -> [u8; RECORD] {
    let mut record = record("A", "SMITH", amount);
    put(&mut record, 50, "JOHN");
    record
}

fn control(totals: [u64; 4]) -> [u8; RECORD] {
    let mut record = [SPACE; RECORD];
    put(&mut record, 1, "OHCTL");
    write_number(&mut record[5..14], totals[0]);
    write_number(&mut record[14..23], totals[1]);
    write_number(&mut record[23..34], totals[2]);
    write_number(&mut record[34..45], totals[3]);
    record
}

fn around() -> Surroundings<'static> {
    Surroundings {
        state: [0xD6, 0xC8],
        year: 2007,
        list: &[],
    }
}

/// A step under a key without B records.
fn worked(row: Option<Row>, record: &[u8]) -> (Option<Row>, Verdict) {
    step(row, record, &Names::new(), &around())
}

fn live_row() -> Row {
    worked(None, &add("00000025")).0.unwrap()
}

fn codes(row: Option<&Row>, record: &[u8]) -> Vec<u32> {
    let verdict = judge(row, record, &Names::new(), &around());
    (0..64).filter(|&code| verdict.has(code)).collect()
}

const NONE: Vec<u32> = Vec::new();

#[test]
fn example() {
    let batch = [
        add("00000025"),
        record("M", "SMYTH", "00000100"),
        control([0, 2, 0, 125]),
    ]
    .concat();
    let mut master = vec![7; 400];
    let mut verdicts = [9; 3];
    let mut rejects = vec![8; 800];
    let counts = apply(
        &mut master,
        0,
        &batch,
        &[],
        2007,
        &mut verdicts,
        &mut rejects,
    );
    let expected = Counts {
        accepted: 1,
        rejected: 1,
        warned: 0,
        neither: 0,
        rows: 1,
    };
    assert_eq!(counts, Ok(expected));
    assert_eq!(verdicts, [0, 1 << 17, 9]);
    assert!(row_sound(&master[..ROW]));
    assert!(master[ROW..].iter().all(|&byte| byte == 7));
    let mut reject = record("M", "SMYTH", "00000100");
    put(&mut reject, 228, "17");
    put(&mut reject, 240, "SMIT");
    assert_eq!(&rejects[..245], &reject);
    let mut last = [SPACE; RECORD];
    put(&mut last, 1, "OHCTL");
    put(
        &mut last,
        6,
        "000000000000000000000000001000000001000000000000000000",
    );
    assert_eq!(&rejects[245..490], &last);
    assert!(rejects[490..].iter().all(|&byte| byte == 8));
}

#[test]
fn a_amounts() {
    assert_eq!(codes(None, &add("00000024")), [8]);
    assert_eq!(codes(None, &add("00000025")), NONE);
}

#[test]
fn b_years() {
    let row = live_row();
    for (year, expected) in [
        ("2000", NONE),
        ("2007", NONE),
        ("1999", vec![13]),
        ("2008", vec![13]),
    ] {
        let mut payment = record("S", "SMITH", "00000001");
        put(&mut payment, 80, year);
        assert_eq!(codes(Some(&row), &payment), expected);
    }
}

#[test]
fn c_names() {
    for (name, expected) in [
        ("LI  ", NONE),
        ("O-NE", NONE),
        ("O NE", vec![5]),
        ("    ", vec![5]),
    ] {
        let mut detail = add("00000025");
        put(&mut detail, 30, "     ");
        put(&mut detail, 30, name);
        assert_eq!(codes(None, &detail), expected);
    }
}

#[test]
fn d_exclusions() {
    let row = live_row();
    for (words, set) in [
        ("RET,PAS FIN", Some(0b110_0010)),
        (",,TAX", Some(0b1_0000)),
        ("RETPAS", None),
        ("", Some(0)),
        ("ADM,ADM", Some(0b1111)),
        ("ADM,XYZ", None),
    ] {
        let mut replace = record("R", "SMITH", "");
        put(&mut replace, 188, words);
        let (after, verdict) = worked(Some(row), &replace);
        assert_eq!(verdict.has(16), set.is_none());
        assert_eq!(after.unwrap()[194], set.unwrap_or(0));
    }
    let mut replace = record("R", "SMITH", "");
    put(&mut replace, 225, "DCK");
    assert_eq!(worked(Some(row), &replace).0.unwrap()[194], 0x80);
}

#[test]
fn e_dates() {
    for (date, expected) in [("20000229", NONE), ("19000229", vec![15])] {
        let mut detail = add("00000025");
        put(&mut detail, 180, date);
        assert_eq!(codes(None, &detail), expected);
    }
}

#[test]
fn f_numbers() {
    for (ssn, expected) in [
        ("666123456", vec![2]),
        ("123004567", vec![2]),
        ("900000000", NONE),
    ] {
        let mut detail = add("00000025");
        put(&mut detail, 6, ssn);
        assert_eq!(codes(None, &detail), expected);
    }
}

#[test]
fn g_letters() {
    assert!(is_letter(0xC9) && is_letter(0xD1));
    assert!(!is_letter(0xCA) && !is_letter(0xE1));
}

#[test]
fn h_deleted_and_revived() {
    let row = Some(live_row());
    let (row, verdict) = worked(row, &record("M", "SMITH", "00000000"));
    assert_eq!((row.unwrap()[195], verdict.codes), (ebcdic_byte(b'D'), 0));
    let (row, verdict) = worked(row, &record("L", "SMITH", ""));
    assert_eq!(verdict.codes, 1 << 9);
    let (row, verdict) = worked(row, &add("00000025"));
    assert_eq!((row.unwrap()[195], verdict.codes), (SPACE, 0));
}

#[test]
fn i_two_keys() {
    let mut other = add("00000025");
    put(&mut other, 74, "A");
    let batch = [add("00000025"), other, control([1, 1, 25, 25])].concat();
    let mut master = vec![0; 400];
    let mut rejects = vec![0; 735];
    let counts = apply(&mut master, 0, &batch, &[], 2007, &mut [0; 2], &mut rejects);
    assert_eq!(counts.map(|counts| counts.rows), Ok(2));
}

#[test]
fn j_order() {
    let row = Some(live_row());
    let (first, second) = (
        record("M", "SMITH", "00000100"),
        record("M", "SMITH", "00000200"),
    );
    let run = |one: &[u8], two: &[u8]| {
        let (row, _) = worked(row, one);
        worked(row, two).0
    };
    assert_ne!(run(&first, &second), run(&second, &first));
}

#[test]
fn states_rise() {
    let states: Vec<&[u8]> = STATES.chunks(2).collect();
    assert_eq!(states.len(), 54);
    assert!(states.windows(2).all(|pair| pair[0] < pair[1]));
}

#[test]
fn odd_lengths() {
    let mut none: [u8; 0] = [];
    let batch = control([0; 4]);
    assert_eq!(
        apply(&mut [], usize::MAX, &batch, &[], 2007, &mut [], &mut none),
        Err(3)
    );
    assert_eq!(
        apply(&mut [], 0, &batch, &[], u64::MAX, &mut [], &mut none),
        Err(1)
    );
    assert_eq!(
        apply(&mut [], 0, &batch, &[0xF1], 2007, &mut [], &mut none),
        Err(2)
    );
    assert_eq!(
        apply(&mut [], 0, &[], &[], 2007, &mut [], &mut none),
        Err(5)
    );
    assert_eq!(
        apply(&mut [], 0, &batch, &[], 2007, &mut [], &mut [0; 244]),
        Err(11)
    );
    assert!(apply(&mut [], 0, &batch, &[], 2007, &mut [], &mut [0; 245]).is_ok());
    assert_eq!(find(&[], usize::MAX, &[]), Err(3));
    assert_eq!(find(&[], 0, &[]), Err(14));
    assert_eq!(find(&[], 0, &live_row()[..12]), Err(15));
    assert_eq!(find(&live_row(), 1, &live_row()[..12]), Ok(0));
    assert_eq!(reconcile(&[], 0, &[], &[], &mut []), Err(12));
    assert_eq!(reconcile(&[], 0, &[0xD6, 0xC8], &[], &mut []), Err(13));
}

#[test]
fn reconciliation() {
    let mut row = live_row();
    row[194] = 0b1000_0001;
    let mut date = [SPACE; 8];
    put(&mut date, 1, "20070131");
    let mut out = [5; 491];
    assert_eq!(reconcile(&row, 1, &[0xD6, 0xC8], &date, &mut out), Ok(1));
    let mut rec = [SPACE; RECORD];
    put(&mut rec, 1, "RECOH000123456789");
    put(&mut rec, 33, "SMITH");
    put(&mut rec, 53, "JOHN");
    put(&mut rec, 63, "00000025N");
    put(&mut rec, 82, "ADM                  DCK");
    assert_eq!(&out[..245], &rec);
    let mut rct = [SPACE; RECORD];
    put(&mut rct, 1, "RCTOH00000000000000000100000000120070131");
    assert_eq!(&out[245..490], &rct);
    assert_eq!(out[490], 5);
}
