//! The records that lead to a wanted case through the library: every set, every column, and
//! the limits of the buffers.

use fantanolive::raw;
use generator::bulk;
use generator::text::{put_text, text, EDGES};

const STATE: [u8; 2] = [0xD6, 0xC8];

/// Answer, result and output by the library; the reference gives the same.
fn asked(row: &[u8], wanted: &[u8], list: &[u8], length: usize) -> (u64, u64, Vec<u8>) {
    let (mut one, mut two, mut records) = (vec![0xEE; length], vec![0xEE; length], 77);
    let answer = raw::records_to(row, wanted, list, &mut one, &mut records);
    let expected = match reference::records_to(row, wanted, list, &mut two) {
        Ok(count) => (0, count),
        Err(number) => (number, 77),
    };
    assert_eq!((answer, records), expected);
    assert!(one == two);
    (answer, records, one)
}

/// A live row of 1,000 dollars and 50 cents with code 001.
fn row() -> Vec<u8> {
    bulk::rows(STATE, 1, 2)
}

fn with(mut row: Vec<u8>, place: usize, ordinary: &str) -> Vec<u8> {
    put_text(&mut row, place, ordinary);
    row
}

fn with_set(mut row: Vec<u8>, set: u8) -> Vec<u8> {
    row[194] = set;
    row
}

#[test]
fn every_set_against_every_other() {
    for from in [0, 1, 0b1111, 0x55, 0xFF] {
        for to in 0..=255u8 {
            let (one, two) = (with_set(row(), from), with_set(row(), to));
            let closed = to & 1 == 0 || to & 0b1110 == 0b1110;
            let answer = asked(&one, &two, &[], 980).0;
            assert_eq!(answer, if from == to || closed { 0 } else { 29 });
        }
    }
}

#[test]
fn every_column_of_the_wanted_row() {
    let list = text("001002");
    for place in 0..200 {
        for byte in EDGES.into_iter().chain(0xF1..=0xF9) {
            let mut wanted = row();
            wanted[place] = byte;
            asked(&row(), &wanted, &list, 980);
        }
    }
}

#[test]
fn every_code() {
    let list = text("000002500999");
    for code in 0..1000 {
        let wanted = with(row(), 13, &format!("{code:03}"));
        let right = [0, 1, 2, 500, 999].contains(&code);
        let (answer, records, _) = asked(&row(), &wanted, &list, 980);
        assert_eq!(answer, if right { 0 } else { 29 });
        assert_eq!(records, if !right { 77 } else { u64::from(code != 1) });
    }
    let all: Vec<u8> = (0..1000)
        .flat_map(|code| text(&format!("{code:03}")))
        .collect();
    assert_eq!(asked(&row(), &with(row(), 13, "777"), &all, 980).0, 0);
    assert_eq!(asked(&row(), &with(row(), 13, "000"), &[], 980).0, 0);
}

#[test]
fn lengths() {
    let wanted = with(row(), 16, "X   ");
    for length in [0, 244, 245, 246, 979, 980, 981, 2000] {
        let expected = if length < 980 { 30 } else { 0 };
        assert_eq!(asked(&row(), &wanted, &[], length).0, expected);
        assert_eq!(asked(&row(), &row(), &[], length).0, expected);
    }
    let long = [row(), vec![0x40; 200]].concat();
    for length in (0..=400).filter(|&length| length != 200) {
        assert_eq!(asked(&long[..length], &wanted, &[], 980).0, 4);
        assert_eq!(asked(&row(), &long[..length], &[], 980).0, 4);
    }
}

#[test]
fn refusals_in_order() {
    let (unsound, other) = (with(row(), 66, " "), with(row(), 1, "AK"));
    assert_eq!(asked(&unsound, &unsound, &[0xF1], 0).0, 2);
    assert_eq!(asked(&unsound, &other, &[], 0).0, 4);
    assert_eq!(asked(&row(), &unsound, &[], 0).0, 4);
    assert_eq!(asked(&row(), &other, &[], 0).0, 29);
    assert_eq!(asked(&row(), &row(), &[], 0).0, 30);
}

#[test]
fn balances() {
    let gone = with(row(), 66, "00000000");
    let gone = with(with(gone, 196, "D"), 197, "00");
    let owing = |dollars: &str, cents: &str| with(with(row(), 66, dollars), 197, cents);
    for (one, two, answer) in [
        (row(), gone.clone(), 0),
        (gone.clone(), gone.clone(), 0),
        (gone.clone(), row(), 29),
        (gone.clone(), with(gone.clone(), 16, "X"), 29),
        (row(), owing("00001000", "00"), 0),
        (row(), owing("00001000", "51"), 29),
        (row(), owing("00001001", "50"), 29),
        (row(), owing("99999999", "00"), 0),
        (row(), owing("00000000", "50"), 29),
        (owing("00000000", "50"), gone, 0),
        (owing("00000000", "50"), owing("00000001", "00"), 0),
    ] {
        assert_eq!(asked(&one, &two, &[], 980).0, answer);
    }
}

#[test]
fn four_records() {
    let list = text("001002");
    let wanted = with(with(row(), 13, "002"), 16, "NEWCASE        ");
    let wanted = with_set(with(with(wanted, 66, "00000001"), 197, "00"), 0b1000_1111);
    let (answer, records, out) = asked(&row(), &wanted, &list, 981);
    assert_eq!((answer, records, out[980]), (0, 4, 0xEE));
    let types: Vec<u8> = out.chunks_exact(245).map(|record| record[72]).collect();
    assert_eq!(types, text("CLRM"));
    assert_eq!(out[490 + 187..490 + 187 + 20], text("ADM,RET,VEN,SAL,DCK "));
}
