//! The totals of many details through the library, which random cases seldom reach.

use fantanolive::raw;
use generator::bulk;
use generator::records::{batch, Record, RECORD};
use generator::rng::Rng;
use generator::text::put_text;

const STATE: [u8; 2] = [0xD6, 0xC8];
const MANY: usize = 65_537;

/// Answer and totals by the library; the reference gives the same.
fn summed(batch: &[u8]) -> (u64, [u64; 4]) {
    let mut totals = [77; 4];
    let answer = raw::totals(batch, &mut totals);
    let expected = match reference::totals(batch) {
        Ok(totals) => (0, totals),
        Err(number) => (number, [77; 4]),
    };
    assert_eq!((answer, totals), expected);
    (answer, totals)
}

/// A record of the largest amount.
fn largest(number: usize) -> Record {
    let mut record = bulk::add(STATE, number);
    put_text(&mut record, 65, "99999999");
    record
}

#[test]
fn many_details() {
    // An even number is TANF, an odd one Non-TANF.
    let sum = MANY as u64 * 99_999_999;
    let tanf = batch(STATE, &vec![largest(0); MANY]);
    assert_eq!(summed(&tanf), (0, [MANY as u64, 0, sum, 0]));
    let other = batch(STATE, &vec![largest(1); MANY]);
    assert_eq!(summed(&other), (0, [0, MANY as u64, 0, sum]));
}

#[test]
fn lengths() {
    let right = batch(STATE, &[largest(0), largest(1)]);
    for length in 0..=right.len() {
        let records = length / RECORD;
        let expected = if length == 0 || length % RECORD != 0 {
            (5, [77; 4])
        } else {
            let sum = |details: usize| (details as u64, 99_999_999 * details as u64);
            let (one, two) = (sum((records - 1).min(1)), sum(records.saturating_sub(2)));
            (0, [one.0, two.0, one.1, two.1])
        };
        assert_eq!(summed(&right[..length]), expected);
    }
}

#[test]
fn what_refusals_7_and_8_want() {
    let mut rng = Rng::new(17);
    for _ in 0..200 {
        let details: Vec<Record> = (0..rng.below(20))
            .map(|number| bulk::change(&mut rng, STATE, number, b"AMSDC"))
            .collect();
        let right = batch(STATE, &details);
        let (answer, [one, two, three, four]) = summed(&right);
        assert_eq!(answer, 0);
        let said = generator::records::control(STATE, [one, two, three, four]);
        assert_eq!(right[right.len() - RECORD..], said);
        // Whatever the last record says.
        let mut wrong = right.clone();
        let start = wrong.len() - RECORD;
        rng.fill(&mut wrong[start..]);
        assert_eq!(summed(&wrong), summed(&right));
    }
}
