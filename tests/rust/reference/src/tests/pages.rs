//! Item 12 of document 02: case pages, worked by hand.

use super::{live_row, put};
use crate::pages::{pages, WIDTH};
use crate::row::{Row, ROW};
use crate::text::SPACE;

/// A row of OH 9000NNNNN N.
fn row(number: usize) -> Row {
    let mut row = live_row();
    put(&mut row, 3, &format!("{}", 900_000_000 + number));
    row
}

fn deleted(number: usize) -> Row {
    let mut row = row(number);
    put(&mut row, 66, "00000000");
    put(&mut row, 196, "D");
    row
}

fn line(text: &str) -> [u8; WIDTH] {
    let mut line = [SPACE; WIDTH];
    put(&mut line, 1, text);
    line
}

/// The lines of all pages, and how many pages; a mark behind them is kept, and a byte less is 31.
fn printed(rows: &[Row], lines: usize) -> (Vec<[u8; WIDTH]>, u64) {
    let (master, length) = (rows.concat(), lines * WIDTH);
    let mut out = vec![7; length + 2];
    let count = pages(&master, rows.len(), &mut out).unwrap();
    assert_eq!(out[length..], [7; 2]);
    if length > 0 {
        let mut short = vec![7; length - 1];
        assert_eq!(pages(&master, rows.len(), &mut short), Err(31));
        assert!(short.iter().all(|&byte| byte == 7));
    }
    assert_eq!(pages(&master, rows.len(), &mut out[..length]), Ok(count));
    let line = |bytes: &[u8]| bytes.try_into().unwrap();
    (out[..length].chunks(WIDTH).map(line).collect(), count)
}

#[test]
fn one_row() {
    let (lines, count) = printed(&[live_row()], 3);
    assert_eq!(count, 1);
    assert_eq!(lines[0], line("CASES 000001"));
    // The key in 1–12, code 14–16, last name 18–37, first name 39–53, arrearage 55–62, bits 64.
    let expected = concat!(
        "OH123456789N 000 SMITH                JOHN            00000025 0",
        "                                                                    "
    );
    assert_eq!(expected.len(), WIDTH);
    assert_eq!(lines[1], line(expected));
    assert_eq!(lines[2], line("TOTAL 0001"));
}

#[test]
fn fields_as_in_the_row() {
    let mut row = live_row();
    put(&mut row, 13, "987");
    put(&mut row, 31, "ABCD-FGHIJKLMNOPQRST");
    put(&mut row, 51, "UVWXYZ012345678");
    put(&mut row, 66, "87654321");
    put(&mut row, 197, "99");
    row[194] = 0b1010_0110;
    let (lines, _) = printed(&[row], 3);
    let expected = "OH123456789N 987 ABCD-FGHIJKLMNOPQRST UVWXYZ012345678 87654321 4";
    assert_eq!(lines[1], line(expected));
    // Any bytes of a name; the cents aren't shown.
    let mut odd = live_row();
    odd[34..65].fill(0x00);
    put(&mut odd, 66, "00000000");
    put(&mut odd, 197, "50");
    let (lines, _) = printed(&[odd], 3);
    assert_eq!(lines[1][21..37], [0x00; 16]);
    assert_eq!(lines[1][37], SPACE);
    assert_eq!(lines[1][38..53], [0x00; 15]);
    assert_eq!(lines[1][53..63], line(" 00000000 ")[..10]);
}

#[test]
fn bits() {
    for (set, digit) in [
        (0x00, 0xF0),
        (0x01, 0xF1),
        (0x80, 0xF1),
        (0x0F, 0xF4),
        (0x7F, 0xF7),
        (0xFF, 0xF8),
    ] {
        let mut row = live_row();
        row[194] = set;
        assert_eq!(printed(&[row], 3).0[1][63], digit);
    }
}

#[test]
fn full_pages_and_last_ones() {
    // Live rows, and the lines of each page.
    let cases: [(usize, &[usize]); 7] = [
        (0, &[]),
        (1, &[1]),
        (57, &[57]),
        (58, &[58]),
        (59, &[58, 1]),
        (116, &[58, 58]),
        (117, &[58, 58, 1]),
    ];
    for (live, per_page) in cases {
        let rows: Vec<Row> = (0..live).map(row).collect();
        let (lines, count) = printed(&rows, live + 2 * per_page.len());
        assert_eq!(count, per_page.len() as u64);
        let (mut at, mut shown) = (0, 0);
        for (&lines_here, page) in per_page.iter().zip(1..) {
            assert_eq!(lines[at], line(&format!("CASES {page:06}")));
            for here in 1..=lines_here {
                assert_eq!(lines[at + here][..12], rows[shown][..12]);
                shown += 1;
            }
            at += lines_here + 1;
            assert_eq!(lines[at], line(&format!("TOTAL {lines_here:04}")));
            at += 1;
        }
        assert_eq!((at, shown), (lines.len(), live));
    }
}

#[test]
fn deleted_rows_and_states() {
    let mut rows = vec![row(1), deleted(2), row(3), deleted(4)];
    let mut other = row(5);
    put(&mut other, 1, "WV");
    rows.push(other);
    let mut first = row(6);
    put(&mut first, 1, "AK");
    rows.insert(0, first);
    let (lines, count) = printed(&rows, 6);
    assert_eq!(count, 1);
    let keys: Vec<&[u8]> = lines[1..5].iter().map(|line| &line[..12]).collect();
    let live = [&rows[0], &rows[1], &rows[3], &rows[5]].map(|row| &row[..12]);
    assert_eq!(keys, live);
    assert_eq!(lines[5], line("TOTAL 0004"));
    // Deleted rows alone: no pages, and no buffer is asked for.
    assert_eq!(printed(&[deleted(1), deleted(2)], 0), (vec![], 0));
    assert_eq!(pages(&[], 0, &mut []), Ok(0));
}

#[test]
fn masters_first() {
    let mut master = live_row();
    assert_eq!(pages(&master, 2, &mut []), Err(3));
    assert_eq!(pages(&master[..199], 0, &mut []), Err(3));
    assert_eq!(pages(&master, usize::MAX, &mut []), Err(3));
    assert_eq!(pages(&master, 1, &mut []), Err(31));
    // Rows behind the count are none.
    assert_eq!(pages(&master, 0, &mut []), Ok(0));
    put(&mut master, 199, "0");
    assert_eq!(pages(&master, 1, &mut [0; ROW]), Err(4));
}
