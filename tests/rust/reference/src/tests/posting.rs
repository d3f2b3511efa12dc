//! Item 6 of document 02: cents, the conversion and posting, worked by hand.

use sparse::Mapping;

use super::{add, codes, live_row, put, record, worked, NONE};
use crate::batch::RECORD;
use crate::lookup::{find, reconcile};
use crate::posting::{add_cents, balance, post, Cents, LINE};
use crate::row::{row_sound, Row, ROW};
use crate::text::{ebcdic_byte, SPACE};

type Line = [u8; LINE];

/// The live row of OH 123456789 N with other dollars and cents.
fn row(dollars: &str, cents: &str) -> Row {
    let mut row = live_row();
    put(&mut row, 66, dollars);
    put(&mut row, 197, cents);
    let nothing = dollars == "00000000" && cents == "00";
    put(&mut row, 196, if nothing { "D" } else { " " });
    row
}

/// A line of the row's key.
fn line(collection: &str, adjustment: &str) -> Line {
    let mut line = [SPACE; LINE];
    put(&mut line, 1, "OH");
    put(&mut line, 6, "123456789");
    put(&mut line, 76, collection);
    put(&mut line, 87, adjustment);
    put(&mut line, 107, "N");
    line
}

const ZERO: &str = "00000000000";

fn collect(amount: &str) -> Line {
    line(amount, ZERO)
}

fn adjust(amount: &str) -> Line {
    line(ZERO, amount)
}

fn total(adjustments: u64, collections: u64) -> Line {
    let mut line = [SPACE; LINE];
    put(&mut line, 6, "TOTAL    ");
    put(
        &mut line,
        35,
        &format!("{adjustments:015}{collections:015}"),
    );
    line
}

/// Posts lines to a master of one row with a mark behind it: the row, and the numbers listed.
fn posted(row: Row, counts: (u64, u64), lines: &[Line]) -> (Row, Vec<u32>) {
    let file = [lines.concat(), total(counts.0, counts.1).to_vec()].concat();
    let mut master = [row.to_vec(), vec![7; ROW]].concat();
    let mut list = vec![999; lines.len() + 1];
    let listed = post(&mut master, 1, &file, &mut list).unwrap() as usize;
    assert!(master[ROW..].iter().all(|&byte| byte == 7));
    assert!(list[listed..].iter().all(|&number| number == 999));
    list.truncate(listed);
    let mut after = [SPACE; ROW];
    after.copy_from_slice(&master[..ROW]);
    assert!(row_sound(&after));
    (after, list)
}

#[test]
fn sound_rows() {
    assert!(row_sound(&row("00000025", "00")));
    assert!(row_sound(&row("00000025", "99")));
    assert!(row_sound(&row("00000000", "50")));
    assert!(row_sound(&row("00000000", "00")));
    for cents in ["  ", "0 ", " 0", "A0", "0A"] {
        assert!(!row_sound(&row("00000025", cents)));
    }
    let mut live = row("00000000", "00");
    put(&mut live, 196, " ");
    assert!(!row_sound(&live));
    let mut deleted = row("00000000", "50");
    put(&mut deleted, 196, "D");
    assert!(!row_sound(&deleted));
    for column in [199, 200] {
        let mut filled = row("00000025", "00");
        put(&mut filled, column, "0");
        assert!(!row_sound(&filled));
    }
}

#[test]
fn the_machine_s_cents() {
    let start = row("00000030", "50");
    for (record, cents) in [
        (add("00000025"), "00"),
        (record("M", "SMITH", "00000100"), "00"),
        (record("M", "SMITH", "00000000"), "00"),
        (record("D", "SMITH", ""), "00"),
        (record("R", "SMITH", ""), "50"),
        (record("L", "SMITH", ""), "50"),
    ] {
        let (after, verdict) = worked(Some(start), &record);
        let after = after.unwrap();
        assert_eq!(verdict.codes, 0);
        assert_eq!(
            &after[196..198],
            cents.bytes().map(ebcdic_byte).collect::<Vec<u8>>()
        );
        assert!(row_sound(&after));
    }
    // An error keeps them.
    let (after, _) = worked(Some(start), &record("M", "SMYTH", "00000100"));
    assert_eq!(after, Some(start));
    // A fresh row has 00; 50 cents are a live row's.
    assert_eq!(&live_row()[196..], [0xF0, 0xF0, SPACE, SPACE]);
    assert_eq!(
        codes(Some(&row("00000000", "50")), &record("L", "SMITH", "")),
        NONE
    );
    assert_eq!(
        codes(Some(&row("00000000", "00")), &record("L", "SMITH", "")),
        [9]
    );
}

#[test]
fn reconciled_in_dollars() {
    let state = [ebcdic_byte(b'O'), ebcdic_byte(b'H')];
    let mut date = [SPACE; 8];
    put(&mut date, 1, "20070131");
    let mut out = vec![5; 2 * RECORD];
    assert_eq!(
        reconcile(&row("00000000", "50"), 1, &state, &date, &mut out),
        Ok(1)
    );
    assert_eq!(out[62..70], [0xF0; 8]);
    assert_eq!(
        reconcile(&row("00000000", "00"), 1, &state, &date, &mut out),
        Ok(0)
    );
    assert_eq!(find(&row("00000000", "50"), 1, &live_row()[..12]), Ok(0));
}

#[test]
fn conversion() {
    let mut live = live_row();
    put(&mut live, 197, "  ");
    let mut deleted = row("00000000", "00");
    put(&mut deleted, 1, "WV");
    put(&mut deleted, 197, "  ");
    let mut master = [&live[..], &deleted, &[7; ROW]].concat();
    let mut expected = master.clone();
    put(&mut expected, 197, "00");
    put(&mut expected[ROW..], 197, "00");
    assert_eq!(add_cents(&mut master, 2), Ok(()));
    assert_eq!(master, expected);
    // A converted master with rows isn't of the old kind, and one without is.
    assert_eq!(add_cents(&mut master, 2), Err(4));
    assert_eq!(add_cents(&mut master, 0), Ok(()));
    assert_eq!(add_cents(&mut master, 4), Err(3));
    assert_eq!(add_cents(&mut master[..599], 0), Err(3));
    assert_eq!(add_cents(&mut master, usize::MAX), Err(3));
    assert_eq!(master, expected);
    assert_eq!(add_cents(&mut [], 0), Ok(()));
    // Old rows are unsound elsewhere.
    assert_eq!(find(&live, 1, &live[..12]), Err(4));
    // The old status: D exactly when the arrearage is zero.
    put(&mut live, 196, "D");
    assert_eq!(add_cents(&mut live, 1), Err(4));
}

#[test]
fn balances() {
    assert_eq!(balance(&row("00000025", "07")), Cents(2507));
    assert_eq!(balance(&row("99999999", "99")), Cents(9_999_999_999));
}

#[test]
fn collections() {
    let start = row("00000030", "50");
    for (amount, dollars, cents) in [
        ("00000000001", "00000030", "49"),
        ("00000000051", "00000029", "99"),
        ("00000003000", "00000000", "50"),
        ("00000003049", "00000000", "01"),
        ("00000003050", "00000000", "00"),
        ("00000003051", "00000000", "00"),
        ("99999999999", "00000000", "00"),
    ] {
        let (after, listed) = posted(start, (0, 1), &[collect(amount)]);
        assert_eq!((after, listed), (row(dollars, cents), vec![]), "{amount}");
    }
}

#[test]
fn adjustments() {
    for (start, amount, expected) in [
        (("00000030", "50"), "00000000050", Some(("00000031", "00"))),
        (("00000030", "50"), "09999996949", Some(("99999999", "99"))),
        (("00000030", "50"), "09999996950", None),
        (("99999999", "98"), "00000000001", Some(("99999999", "99"))),
        (("99999999", "99"), "00000000001", None),
        (("00000000", "01"), "99999999999", None),
    ] {
        let start = row(start.0, start.1);
        let after = expected.map_or(start, |(dollars, cents)| row(dollars, cents));
        let listed = if expected.is_none() { vec![1] } else { vec![] };
        assert_eq!(posted(start, (1, 0), &[adjust(amount)]), (after, listed));
    }
}

#[test]
fn two_zeros() {
    let start = row("99999999", "99");
    assert_eq!(posted(start, (0, 0), &[line(ZERO, ZERO)]), (start, vec![]));
    let gone = row("00000000", "00");
    assert_eq!(posted(gone, (0, 0), &[line(ZERO, ZERO)]), (gone, vec![1]));
}

#[test]
fn last_digits() {
    let start = row("00000030", "50");
    for (byte, good) in [
        (0xC0, true),
        (0xC9, true),
        (0xF0, true),
        (0xF9, true),
        (0xCA, false),
        (0xBF, false),
        (0xD0, false),
        (0xD9, false),
        (0xEF, false),
        (0xFA, false),
        (0x40, false),
        (0x00, false),
    ] {
        let mut one = collect("00000000100");
        one[85] = byte;
        let expected = if !good {
            (start, vec![1])
        } else if byte & 15 == 9 {
            (row("00000029", "41"), vec![])
        } else {
            (row("00000029", "50"), vec![])
        };
        assert_eq!(posted(start, (0, u64::from(good)), &[one]), expected);
        let mut one = adjust(ZERO);
        one[96] = byte;
        let raised = good && byte & 15 == 9;
        let cents = if raised { "59" } else { "50" };
        let listed = if good { vec![] } else { vec![1] };
        assert_eq!(
            posted(start, (u64::from(raised), 0), &[one]),
            (row("00000030", cents), listed)
        );
    }
    // C0 to C9 count at the last place alone.
    let mut one = collect("00000000100");
    one[84] = 0xC0;
    assert_eq!(posted(start, (0, 0), &[one]), (start, vec![1]));
}

#[test]
fn listed_lines() {
    let start = row("00000030", "50");
    let other = |place: usize, text: &str| {
        let mut line = collect("00000000001");
        put(&mut line, place, text);
        line
    };
    let lines = [
        line("00000000001", "00000000001"),
        line("0000000000A", ZERO),
        line("00000000001", "           "),
        line("           ", "00000000001"),
        line("           ", "           "),
        other(1, "WV"),
        other(6, "123456780"),
        other(107, "A"),
        other(107, " "),
        // Other columns have no say.
        other(3, "XYZ"),
        other(15, "CASE"),
        other(98, "Y"),
    ];
    // "A" is C1: a last digit 1.
    assert_eq!(ebcdic_byte(b'A'), 0xC1);
    let counts = (2, 10);
    let (after, listed) = posted(start, counts, &lines);
    assert_eq!(listed, [1, 3, 4, 5, 6, 7, 8, 9]);
    assert_eq!(after, row("00000030", "46"));
}

#[test]
fn behind_a_deletion() {
    let lines = [
        adjust("00000000050"),
        collect("00000003100"),
        adjust("00000010000"),
        collect("00000000001"),
        line(ZERO, ZERO),
    ];
    let (after, listed) = posted(row("00000030", "50"), (2, 2), &lines);
    assert_eq!((after, listed), (row("00000000", "00"), vec![3, 4, 5]));
}

#[test]
fn balances_add_up() {
    // 30.50 + 10.00 + 5.00 = 0.00 + (40.00 + 5.40 + 7.00) − 6.90, the excess of the last line.
    let lines = [
        adjust("00000001000"),
        collect("00000004000"),
        adjust("00000000500"),
        collect("00000000540"),
        collect("00000000700"),
        adjust("00000009999"),
    ];
    let (after, listed) = posted(row("00000030", "50"), (3, 3), &lines);
    assert_eq!((after, listed), (row("00000000", "00"), vec![6]));
    assert_eq!(3050 + 1000 + 500, 4000 + 540 + 700 - 690);
}

/// What a file comes to over one row, when nothing may be written.
fn refused(file: &[u8], list: usize) -> u64 {
    let mut master = row("00000030", "50");
    let mut numbers = vec![999; list];
    let answer = post(&mut master, 1, file, &mut numbers).unwrap_err();
    assert_eq!(master, row("00000030", "50"));
    assert!(numbers.iter().all(|&number| number == 999));
    answer
}

#[test]
fn refusals() {
    let both = line("00000000001", "00000000001");
    let lines = [
        collect("00000000001"),
        both,
        line("          A", "00000000001"),
    ];
    let file = |last: Line| [lines.concat(), last.to_vec()].concat();
    // A line with both counts in both; a bad field counts as zero beside a good one.
    let right = file(total(2, 2));
    assert!(post(&mut row("00000030", "50"), 1, &right, &mut [0; 3]).is_ok());
    assert_eq!(refused(&[], 9), 22);
    assert_eq!(refused(&right[..959], 9), 22);
    let most = Mapping::zeros(LINE * 16_777_217);
    assert_eq!(refused(&most, 9), 22);
    assert_eq!(refused(&most[LINE..], 9), 23);
    for last in [total(1, 2), total(2, 1), total(2, 3), total(3, 2)] {
        assert_eq!(refused(&file(last), 9), 23);
    }
    for (place, text) in [
        (6, "TOTALS   "),
        (6, " "),
        (14, "X"),
        (35, " "),
        (50, " "),
        (64, "B"),
    ] {
        let mut last = total(2, 2);
        put(&mut last, place, text);
        assert_eq!(refused(&file(last), 9), 23);
    }
    assert_eq!(refused(&right, 2), 24);
    assert_eq!(refused(&file(total(1, 1)), 2), 23);
    // Nothing else of the last record is looked at.
    let mut last = [0x5A; LINE];
    last[5..14].copy_from_slice(&total(2, 2)[5..14]);
    last[34..64].copy_from_slice(&total(2, 2)[34..64]);
    assert!(post(&mut row("00000030", "50"), 1, &file(last), &mut [0; 3]).is_ok());
    // A last record alone is a file.
    let mut start = row("00000030", "50");
    assert_eq!(post(&mut start, 1, &total(0, 0), &mut []), Ok(0));
    assert_eq!(post(&mut [], 0, &total(0, 0), &mut []), Ok(0));
    // 3 and 4 come first.
    assert_eq!(post(&mut start, 2, &[], &mut []), Err(3));
    put(&mut start, 197, "  ");
    assert_eq!(post(&mut start, 1, &[], &mut []), Err(4));
}

#[test]
fn any_state_s_row() {
    let mut other = row("00000010", "00");
    put(&mut other, 1, "WV");
    let mut master = [&row("00000030", "50")[..], &other].concat();
    let mut line = collect("00000000100");
    put(&mut line, 1, "WV");
    let mut last = total(0, 1);
    put(&mut last, 1, "OH");
    let file = [line, last].concat();
    assert_eq!(post(&mut master, 2, &file, &mut [0]), Ok(0));
    assert_eq!(balance(&master[ROW..]), Cents(900));
    assert_eq!(&master[..ROW], &row("00000030", "50"));
}
