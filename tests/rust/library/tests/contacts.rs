//! Contact files of many records through the library, which random cases seldom reach.

use fantanolive::raw;
use generator::contacts::{numbered, CONTACT};

/// More than sixteen bits count.
const MANY: usize = 65_537;

/// Answer, result, table and list of an update of an empty table.
fn updated(file: &[u8], space: usize, list: usize) -> (u64, [u64; 2], Vec<u8>, Vec<u32>) {
    let (mut table, mut faulty) = (vec![0xEE; space * CONTACT], vec![0xEEEE_EEEE; list]);
    let mut result = [77; 2];
    let answer = raw::contacts_update(&mut table, 0, file, &mut faulty, &mut result);
    (answer, result, table, faulty)
}

/// The same by the reference.
fn expected(file: &[u8], space: usize, list: usize) -> (u64, [u64; 2], Vec<u8>, Vec<u32>) {
    let (mut table, mut faulty) = (vec![0xEE; space * CONTACT], vec![0xEEEE_EEEE; list]);
    let (answer, result) = match reference::contacts::update(&mut table, 0, file, &mut faulty) {
        Ok(result) => (0, result),
        Err(number) => (number, [77; 2]),
    };
    (answer, result, table, faulty)
}

#[test]
fn a_file_of_many_records() {
    let good: Vec<u8> = (0..MANY).flat_map(|at| numbered(at * 7 % 54_000)).collect();
    let bad = vec![0x40; MANY * CONTACT];
    for file in [&good, &bad] {
        for (space, list) in [(MANY, MANY), (MANY - 1, MANY), (MANY, MANY - 1), (0, 0)] {
            assert!(updated(file, space, list) == expected(file, space, list));
        }
    }
    let (answer, result, _, list) = updated(&bad, MANY, MANY);
    assert_eq!((answer, result), (0, [0, MANY as u64]));
    assert!(list.iter().copied().eq(1..=MANY as u32));
}

#[test]
fn every_key_that_there_is() {
    let file: Vec<u8> = (0..54_000).rev().flat_map(numbered).collect();
    let (answer, result, table, _) = updated(&file, 54_000, 54_000);
    assert_eq!((answer, result), (0, [54_000, 0]));
    assert!(table.chunks(CONTACT).eq((0..54_000).map(numbered)));
    let (mut out, mut codes) = (vec![0xEE; 3 * 999 + 1], 77);
    let state = [0xD6, 0xC8];
    let short = &mut out[..3 * 999 - 1];
    let answer = raw::contacts_codes(&table, 54_000, &state, short, &mut codes);
    assert_eq!((answer, codes), (19, 77));
    let answer = raw::contacts_codes(&table, 54_000, &state, &mut out, &mut codes);
    assert_eq!((answer, codes), (0, 999));
    assert_eq!(out[..3], [0xF0, 0xF0, 0xF1]);
    assert_eq!(out[3 * 998..], [0xF9, 0xF9, 0xF9, 0xEE]);
}
