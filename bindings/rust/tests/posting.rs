//! add_cents and post through the wrapper: the master and the file of the C example, each refusal with every buffer kept.

mod text;

use fantanolive::{add_cents, post, Refusal, LINE, ROW};
use text::filled;

/// A row with dollars, status and cents; without cents these are spaces.
fn row(key: &str, dollars: &str, status: &str, cents: &str) -> Vec<u8> {
    let mut row = filled(
        ROW,
        &[
            (1, key),
            (13, "000"),
            (31, "SMITH"),
            (66, dollars),
            (79, "000000000000"),
            (196, status),
            (197, cents),
        ],
    );
    row[194] = 0;
    row
}

/// 25 dollars and 100 dollars.
fn master(cents: &str) -> Vec<u8> {
    [
        row("OH123456789N", "00000025", " ", cents),
        row("OH987654321A", "00000100", " ", cents),
    ]
    .concat()
}

fn line(ssn: &str, case_type: &str, collection: &str, adjustment: &str) -> Vec<u8> {
    let texts = [
        (1, "OH"),
        (6, ssn),
        (76, collection),
        (87, adjustment),
        (107, case_type),
    ];
    filled(LINE, &texts)
}

/// 10.01 collected and 0.50 adjusted; then 20.00 collected of 14.99, which deletes the case; so 1.00 is not posted.
fn file() -> Vec<u8> {
    let none = "00000000000";
    [
        line("123456789", "N", "00000001001", none),
        line("987654321", "A", none, "00000000050"),
        line("123456789", "N", "00000002000", none),
        line("123456789", "N", none, "00000000100"),
        filled(
            LINE,
            &[
                (1, "OH"),
                (6, "TOTAL"),
                (35, "000000000000002"),
                (50, "000000000000002"),
            ],
        ),
    ]
    .concat()
}

#[test]
fn cents_are_added_once() {
    let mut bytes = master("  ");
    assert_eq!(add_cents(&mut bytes, 2), Ok(()));
    assert_eq!(bytes, master("00"));
    assert_eq!(add_cents(&mut bytes, 2), Err(Refusal::UnsoundRow));
    assert_eq!(add_cents(&mut bytes, 3), Err(Refusal::WrongMaster));
    assert_eq!(bytes, master("00"));
    assert_eq!(add_cents(&mut [], 0), Ok(()));
}

#[test]
fn a_file_is_posted() {
    let mut bytes = master("00");
    let mut lines = [9; 5];
    assert_eq!(post(&mut bytes, 2, &file(), &mut lines), Ok(1));
    assert_eq!(lines, [4, 9, 9, 9, 9]);
    let after = [
        row("OH123456789N", "00000000", "D", "00"),
        row("OH987654321A", "00000100", " ", "50"),
    ];
    assert_eq!(bytes, after.concat());
}

#[test]
fn refusals_in_order() {
    let file = file();
    let refused = |cents: &str, rows, file: &[u8], numbers: usize| {
        let mut bytes = master(cents);
        let mut lines = vec![9; numbers];
        let refusal = post(&mut bytes, rows, file, &mut lines);
        assert!(bytes == master(cents) && lines.iter().all(|&n| n == 9));
        refusal.expect_err("it is to be refused").number()
    };
    assert_eq!(refused("00", 3, &[], 0), 3);
    assert_eq!(refused("  ", 2, &[], 0), 4);
    assert_eq!(refused("00", 2, &[], 0), 22);
    assert_eq!(refused("00", 2, &file[1..], 0), 22);
    assert_eq!(refused("00", 2, &file[LINE..], 4), 23);
    assert_eq!(refused("00", 2, &file, 3), 24);
}
