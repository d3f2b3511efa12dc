//! Item 13 of document 02: two batches into one, worked by hand.

use sparse::Mapping;

use super::{add, control, put, record};
use crate::batch::{parts, RECORD};
use crate::merge::merge;
use crate::text::SPACE;

type Record = [u8; RECORD];

fn modify(case_type: &str, amount: &str) -> Record {
    let mut record = record("M", "SMITH", amount);
    put(&mut record, 74, case_type);
    record
}

fn batch(details: &[Record], totals: [u64; 4]) -> Vec<u8> {
    [details.concat(), control(totals).to_vec()].concat()
}

/// The records of two batches merged, a mark behind them kept.
fn merged(first: &[u8], second: &[u8]) -> Vec<u8> {
    let length = first.len() + second.len() - RECORD;
    let mut out = vec![7; length + 3];
    let records = merge(first, second, &mut out).unwrap() as usize;
    assert_eq!(records * RECORD, length);
    assert_eq!(out[length..], [7; 3]);
    out.truncate(length);
    assert!(parts(&out).is_ok());
    out
}

/// The refusal of two batches, nothing written.
fn refused(first: &[u8], second: &[u8], length: usize) -> u64 {
    let mut out = vec![7; length];
    let answer = merge(first, second, &mut out).unwrap_err();
    assert!(out.iter().all(|&byte| byte == 7));
    answer
}

#[test]
fn totals_field_by_field() {
    let one = [
        modify("A", "00000100"),
        modify("N", "00000020"),
        modify("N", "00000003"),
    ];
    let two = [modify("A", "00007000"), modify("A", "00050000")];
    let first = batch(&one, [1, 2, 100, 23]);
    let second = batch(&two, [2, 0, 57_000, 0]);
    let mut last = [SPACE; RECORD];
    put(&mut last, 1, "OHCTL");
    put(&mut last, 6, "000000003000000002");
    put(&mut last, 24, "0000005710000000000023");
    let expected = [one.concat(), two.concat(), last.to_vec()].concat();
    assert_eq!(merged(&first, &second), expected);
    let turned = [two.concat(), one.concat(), last.to_vec()].concat();
    assert_eq!(merged(&second, &first), turned);
}

#[test]
fn inputs_without_details() {
    let none = batch(&[], [0; 4]);
    let one = batch(&[add("00000025")], [0, 1, 0, 25]);
    assert_eq!(merged(&none, &none), none);
    assert_eq!(merged(&none, &one), one);
    assert_eq!(merged(&one, &none), one);
    // Records of neither case type count in no total, and go along.
    let neither = batch(&[modify("B", "00000100")], [0; 4]);
    let expected = [&neither[..RECORD], &one].concat();
    assert_eq!(merged(&neither, &one), expected);
}

#[test]
fn eleven_digits() {
    // 999 times 99,999,999 is 99,899,999,001; 100,000,998 more make 99,999,999,999.
    for case_type in ["A", "N"] {
        let totals = |count: u64, sum: u64| match case_type {
            "A" => [count, 0, sum, 0],
            _ => [0, count, 0, sum],
        };
        let most = vec![modify(case_type, "99999999"); 999];
        let first = batch(&most, totals(999, 99_899_999_001));
        let rest = |amount: &str, sum: u64| {
            let details = [modify(case_type, "99999999"), modify(case_type, amount)];
            batch(&details, totals(2, sum))
        };
        let fits = rest("00000999", 100_000_998);
        let above = rest("00001000", 100_000_999);
        let out = merged(&first, &fits);
        let control = &out[out.len() - RECORD..];
        let place = if case_type == "A" { 23 } else { 34 };
        assert_eq!(control[place..place + 11], [0xF9; 11]);
        merged(&fits, &first);
        assert_eq!(refused(&first, &above, 2000 * RECORD), 32);
        assert_eq!(refused(&above, &first, 2000 * RECORD), 32);
        assert_eq!(refused(&above, &first, 0), 32);
    }
}

#[test]
fn as_many_details_as_there_can_be() {
    let control = batch(&[], [0; 4]);
    let blank = |count: usize| Mapping::closed(&[SPACE; RECORD], count, &control);
    let (half, most, none) = (blank(8_388_608), blank(16_777_215), blank(0));
    assert_eq!(refused(&half, &blank(8_388_607), 0), 33);
    assert_eq!(refused(&half, &half, 0), 32);
    assert_eq!(refused(&most, &none, 0), 33);
    assert_eq!(refused(&blank(1), &most, 0), 32);
    assert_eq!(refused(&blank(16_777_216), &none, 0), 5);
    merged(&blank(30_000), &blank(40_000));
}

#[test]
fn room_for_the_result() {
    let one = batch(&[add("00000025")], [0, 1, 0, 25]);
    assert_eq!(refused(&one, &one, 3 * RECORD - 1), 33);
    assert_eq!(refused(&one, &one, 0), 33);
    assert_eq!(merge(&one, &one, &mut [0; 3 * RECORD]), Ok(3));
    let none = batch(&[], [0; 4]);
    assert_eq!(refused(&none, &none, RECORD - 1), 33);
    assert_eq!(merge(&none, &none, &mut [0; RECORD]), Ok(1));
}

#[test]
fn two_states() {
    let one = batch(&[add("00000025")], [0, 1, 0, 25]);
    let mut other = one.clone();
    put(&mut other[RECORD..], 1, "WV");
    assert_eq!(refused(&one, &other, 0), 32);
    assert_eq!(refused(&other, &one, 9 * RECORD), 32);
    merged(&other, &other);
}

/// A batch with each fault that an input can have, and its refusal.
fn faulty() -> Vec<(u64, Vec<u8>)> {
    let detail = [add("00000025")];
    let right = batch(&detail, [0, 1, 0, 25]);
    let with = |place: usize, text: &str| {
        let mut wrong = right.clone();
        put(&mut wrong[RECORD..], place, text);
        wrong
    };
    vec![
        (5, vec![]),
        (5, right[1..].to_vec()),
        (6, with(3, "CTR")),
        (20, with(1, "ZZ")),
        (21, with(6, " ")),
        (21, with(245, "0")),
        (7, batch(&detail, [0, 2, 0, 25])),
        (7, batch(&detail, [1, 1, 0, 25])),
        (8, batch(&detail, [0, 1, 0, 26])),
        (8, batch(&detail, [0, 1, 1, 25])),
    ]
}

#[test]
fn the_first_input_first() {
    let right = batch(&[add("00000025")], [0, 1, 0, 25]);
    let mut other = right.clone();
    put(&mut other[RECORD..], 1, "WV");
    for (number, wrong) in faulty() {
        assert_eq!(refused(&wrong, &right, 0), number);
        assert_eq!(refused(&right, &wrong, 0), number);
        assert_eq!(refused(&other, &wrong, 0), number);
        assert_eq!(refused(&wrong, &other, 0), number);
        // Whatever the other's fault is, the first's is told.
        for (_, second) in faulty() {
            assert_eq!(refused(&wrong, &second, 0), number);
        }
    }
}
