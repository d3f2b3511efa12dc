//! The totals of a batch, worked by hand.

use sparse::Mapping;

use super::{add, control, put, record};
use crate::batch::RECORD;
use crate::text::SPACE;
use crate::totals::totals;

type Record = [u8; RECORD];

fn of(kind: &str, case_type: &str, amount: &str) -> Record {
    let mut record = record(kind, "SMITH", amount);
    put(&mut record, 74, case_type);
    record
}

/// The totals of details with a last record of any bytes.
fn summed(details: &[Record]) -> [u64; 4] {
    let batch = [details.concat(), vec![0x5A; RECORD]].concat();
    totals(&batch).unwrap()
}

#[test]
fn what_counts() {
    assert_eq!(summed(&[]), [0; 4]);
    assert_eq!(summed(&[add("00000025")]), [0, 1, 0, 25]);
    let details = [
        of("A", "A", "00000100"),
        of("M", "A", "00000020"),
        of("M", "N", "00000003"),
        // Amounts of other types, of other bytes and of neither case type count for nothing.
        of("S", "A", "00000900"),
        of("D", "N", "00000900"),
        of("M", "A", "0000090 "),
        of("M", "N", "        "),
        of("A", "B", "00000900"),
        of("A", " ", "00000900"),
        of("X", "N", "00000900"),
    ];
    assert_eq!(summed(&details), [4, 4, 120, 3]);
}

#[test]
fn whatever_the_last_record_says() {
    let detail = add("00000025");
    for last in [
        control([0, 1, 0, 25]),
        control([9; 4]),
        [SPACE; RECORD],
        detail,
    ] {
        assert_eq!(totals(&[detail, last].concat()), Ok([0, 1, 0, 25]));
    }
    assert_eq!(totals(&detail), Ok([0; 4]));
}

#[test]
fn beyond_eleven_digits() {
    let details = vec![of("M", "A", "99999999"); 1001];
    assert_eq!(summed(&details), [1001, 0, 100_099_998_999, 0]);
}

#[test]
fn lengths() {
    assert_eq!(totals(&[]), Err(5));
    assert_eq!(totals(&[SPACE; RECORD - 1]), Err(5));
    assert_eq!(totals(&[SPACE; RECORD + 1]), Err(5));
    let batch = Mapping::zeros(RECORD * 16_777_217);
    assert_eq!(totals(&batch), Err(5));
    assert_eq!(totals(&batch[RECORD..]), Ok([0; 4]));
}
