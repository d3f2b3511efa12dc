//! Merging many details and large amounts through the library, which random cases seldom reach.

use fantanolive::raw;
use generator::bulk;
use generator::records::{batch, Record, RECORD};
use generator::text::{digits, put, put_text};

const STATE: [u8; 2] = [0xD6, 0xC8];
const MANY: usize = 65_537;

/// Answer, result and output by the library; the reference gives the same.
fn merged(first: &[u8], second: &[u8], length: usize) -> (u64, u64, Vec<u8>) {
    let (mut one, mut two, mut records) = (vec![0xEE; length], vec![0xEE; length], 77);
    let answer = raw::merge(first, second, &mut one, &mut records);
    let expected = match reference::merge(first, second, &mut two) {
        Ok(count) => (0, count),
        Err(number) => (number, 77),
    };
    assert_eq!((answer, records), expected);
    assert!(one == two);
    (answer, records, one)
}

/// Adds of one key.
fn adds(count: usize) -> Vec<Record> {
    vec![bulk::add(STATE, 2); count]
}

#[test]
fn many_details() {
    let room = (MANY + 2) * RECORD;
    for first in [0, 1, MANY / 2, MANY - 1, MANY] {
        let one = batch(STATE, &adds(first));
        let two = batch(STATE, &adds(MANY - first));
        let (answer, records, out) = merged(&one, &two, room);
        assert_eq!((answer, records), (0, MANY as u64 + 1));
        assert!(out[..room - RECORD] == batch(STATE, &adds(MANY)));
        assert!(out[room - RECORD..].iter().all(|&byte| byte == 0xEE));
        let enough = (MANY + 1) * RECORD;
        assert_eq!(merged(&one, &two, enough).0, 0);
        assert_eq!(merged(&one, &two, enough - 1).0, 33);
    }
}

/// A batch of one case type whose amounts come to a sum.
fn summing(number: usize, mut sum: u64) -> Vec<u8> {
    let mut details = Vec::new();
    while sum > 0 {
        let amount = sum.min(99_999_999);
        let mut record = bulk::add(STATE, number);
        put(&mut record, 65, &digits(amount, 8));
        details.push(record);
        sum -= amount;
    }
    batch(STATE, &details)
}

#[test]
fn amounts_at_eleven_digits() {
    const MOST_AMOUNT: u64 = 99_999_999_999;
    // An even number is TANF, an odd one Non-TANF.
    for number in [0, 1] {
        for (first, second, answer) in [
            (MOST_AMOUNT, 0, 0),
            (0, MOST_AMOUNT, 0),
            (MOST_AMOUNT, 1, 32),
            (1, MOST_AMOUNT, 32),
            (50_000_000_000, 49_999_999_999, 0),
            (50_000_000_000, 50_000_000_000, 32),
            (MOST_AMOUNT, MOST_AMOUNT, 32),
        ] {
            let (one, two) = (summing(number, first), summing(number, second));
            let room = one.len() + two.len();
            assert_eq!(merged(&one, &two, room).0, answer);
        }
        // One of the two may be full where the other isn't.
        let (full, other) = (
            summing(number, MOST_AMOUNT),
            summing(1 - number, MOST_AMOUNT),
        );
        assert_eq!(merged(&full, &other, full.len() + other.len()).0, 0);
    }
}

/// A batch with each fault that an input can have, and its refusal.
fn faulty() -> Vec<(u64, Vec<u8>)> {
    let right = batch(STATE, &adds(2));
    let with = |place: usize, text: &str| {
        let mut wrong = right.clone();
        put_text(&mut wrong[2 * RECORD..], place, text);
        wrong
    };
    vec![
        (5, vec![]),
        (5, right[1..].to_vec()),
        (6, with(3, "CTR")),
        (20, with(1, "ZZ")),
        (21, with(6, " ")),
        (21, with(45, " ")),
        (21, with(46, "0")),
        (21, with(245, "0")),
        (7, with(14, "1")),
        (7, with(23, "1")),
        (8, with(34, "1")),
        (8, with(45, "1")),
    ]
}

#[test]
fn each_refusal_of_each_input() {
    let right = batch(STATE, &adds(2));
    let other = batch([0xE6, 0xE8], &adds(2));
    let room = 5 * RECORD;
    assert_eq!(merged(&right, &right, room).0, 0);
    assert_eq!(merged(&right, &other, 0).0, 32);
    for (number, wrong) in faulty() {
        for (length, beside) in [(room, &right), (0, &right), (0, &other)] {
            assert_eq!(merged(&wrong, beside, length).0, number);
            assert_eq!(merged(beside, &wrong, length).0, number);
        }
        for (_, second) in faulty() {
            assert_eq!(merged(&wrong, &second, 0).0, number);
        }
    }
}

#[test]
fn applied_like_any_batch() {
    let one = batch(STATE, &[bulk::add(STATE, 2), bulk::add(STATE, 5)]);
    let two = batch(STATE, &[bulk::add(STATE, 3)]);
    let (_, records, out) = merged(&one, &two, 4 * RECORD);
    assert_eq!(records, 4);
    let (mut master, mut result) = (vec![0; 600], [0; 5]);
    let (mut verdicts, mut rejects) = ([0; 3], vec![0; 4 * RECORD]);
    let answer = raw::apply(
        &mut master,
        0,
        &out,
        &[0xF0, 0xF0, 0xF2],
        2007,
        &mut verdicts,
        &mut rejects,
        &mut result,
    );
    assert_eq!((answer, result), (0, [3, 0, 0, 0, 3]));
}
