//! pages through the wrapper: masters with live rows at the borders of a page, worked out line by line, and each refusal with the
//! buffer kept.

mod text;

use fantanolive::{pages, pages_size, Refusal, PAGE_CASES, PAGE_LINE, ROW};
use text::{ebcdic, filled};

/// A row with a key, a set and a balance; without dollars it is deleted.
fn row(key: &str, set: u8, dollars: &str) -> Vec<u8> {
    let status = if dollars == "00000000" { "D" } else { " " };
    let mut row = filled(
        ROW,
        &[
            (1, key),
            (13, "123"),
            (16, "CASE"),
            (31, "ABCDEFGHIJKLMNOPQRST"),
            (51, "ABCDEFGHIJKLMNO"),
            (66, dollars),
            (74, "NY999"),
            (79, "200700000009"),
            (196, status),
            (197, "00"),
        ],
    );
    row[194] = set;
    row
}

/// The line of such a row, with the number of its bits.
fn line(key: &str, bits: &str, dollars: &str) -> Vec<u8> {
    filled(
        PAGE_LINE,
        &[
            (1, key),
            (14, "123"),
            (18, "ABCDEFGHIJKLMNOPQRST"),
            (39, "ABCDEFGHIJKLMNO"),
            (55, dollars),
            (64, bits),
        ],
    )
}

fn heading(number: &str) -> Vec<u8> {
    filled(PAGE_LINE, &[(1, "CASES"), (7, number)])
}

fn foot(cases: &str) -> Vec<u8> {
    filled(PAGE_LINE, &[(1, "TOTAL"), (7, cases)])
}

/// The key of the row at a place; two rows have one SSN.
fn key(place: usize) -> String {
    format!("OH123{:02}0001{}", 11 + place / 2, ["A", "N"][place % 2])
}

/// So many live rows, a deleted one before every tenth, and bytes behind them that are no row.
fn master(live: usize) -> (Vec<u8>, usize) {
    let (mut bytes, mut rows, mut printed) = (Vec::new(), 0, 0);
    while printed < live {
        if rows % 11 == 9 {
            bytes.extend(row(&key(rows), 0xFF, "00000000"));
        } else {
            bytes.extend(row(&key(rows), 0x03, "00000025"));
            printed += 1;
        }
        rows += 1;
    }
    bytes.extend([0xAA; ROW]);
    (bytes, rows)
}

/// The lines of the live rows of such a master.
fn lines(live: usize) -> Vec<Vec<u8>> {
    let (_, rows) = master(live);
    let places = (0..rows).filter(|row| row % 11 != 9);
    places.map(|row| line(&key(row), "2", "00000025")).collect()
}

/// What the pages of such a master are, from the borders of its pages: how many lines each has.
fn expected(live: usize, on_each: &[&str]) -> Vec<u8> {
    let (lines, mut out, mut at) = (lines(live), Vec::new(), 0);
    for (page, count) in on_each.iter().enumerate() {
        out.extend(heading(&format!("00000{}", page + 1)));
        let next = at + count.parse::<usize>().expect("a count");
        out.extend(lines[at..next].concat());
        out.extend(foot(count));
        at = next;
    }
    assert_eq!(at, live);
    out
}

#[test]
fn borders_of_pages() {
    let cases: [(usize, &[&str]); 7] = [
        (0, &[]),
        (1, &["0001"]),
        (57, &["0057"]),
        (58, &["0058"]),
        (59, &["0058", "0001"]),
        (116, &["0058", "0058"]),
        (117, &["0058", "0058", "0001"]),
    ];
    for (live, on_each) in cases {
        let (master, rows) = master(live);
        let size = pages_size(live);
        assert_eq!(size, PAGE_LINE * (live + 2 * on_each.len()));
        let mut out = vec![0xCC; size + 7];
        let count = on_each.len() as u64;
        assert_eq!(pages(&master, rows, &mut out), Ok(count), "{live}");
        assert_eq!(out[..size], expected(live, on_each), "{live}");
        assert_eq!(out[size..], [0xCC; 7]);
        // the same in a buffer of exactly this length, and none of it one byte short
        let mut out = vec![0xCC; size];
        assert_eq!(pages(&master, rows, &mut out), Ok(count));
        assert_eq!(out, expected(live, on_each));
        if size > 0 {
            let mut out = vec![0xCC; size - 1];
            assert_eq!(pages(&master, rows, &mut out), Err(Refusal::ShortPages));
            assert!(out.iter().all(|&b| b == 0xCC));
        }
    }
    assert_eq!(PAGE_CASES, 58);
}

#[test]
fn rows_of_three_states_and_every_number_of_bits() {
    let rows = [
        ("AK123456789A", 0x00, "00000025", "0"),
        ("AK123456789N", 0x01, "99999999", "1"),
        ("OH111111111A", 0x28, "00000100", "2"),
        ("OH222222222N", 0x0E, "00000000", ""),
        ("OH333333333A", 0x0E, "00000030", "3"),
        ("WY123456789A", 0x7F, "00000040", "7"),
        ("WY123456789N", 0xFF, "00000050", "8"),
    ];
    let master: Vec<u8> = rows
        .iter()
        .flat_map(|(key, set, dollars, _)| row(key, *set, dollars))
        .collect();
    let live = rows.iter().filter(|row| !row.3.is_empty());
    let lines: Vec<u8> = live
        .flat_map(|(key, _, dollars, bits)| line(key, bits, dollars))
        .collect();
    let mut out = vec![0; 8 * PAGE_LINE];
    assert_eq!(pages(&master, 7, &mut out), Ok(1));
    assert_eq!(out, [heading("000001"), lines, foot("0006")].concat());
}

/// A row of no dollars and some cents is live.
#[test]
fn cents_alone_are_printed() {
    let mut master = row("OH123456789N", 0, "00000000");
    master[195..198].copy_from_slice(&ebcdic(" 50"));
    let mut out = vec![0; 3 * PAGE_LINE];
    assert_eq!(pages(&master, 1, &mut out), Ok(1));
    assert_eq!(
        out[PAGE_LINE..2 * PAGE_LINE],
        line("OH123456789N", "0", "00000000")
    );
}

#[test]
fn no_live_rows_take_no_buffer() {
    let deleted = row("OH123456789N", 0, "00000000");
    assert_eq!(pages(&deleted, 1, &mut []), Ok(0));
    assert_eq!(pages(&[], 0, &mut []), Ok(0));
    let mut out = [0xCC; 9];
    assert_eq!(pages(&deleted, 1, &mut out), Ok(0));
    assert_eq!(out, [0xCC; 9]);
}

#[test]
fn refusals_of_pages_in_order() {
    let (bytes, rows) = master(2);
    assert_eq!(pages(&bytes, 4, &mut []), Err(Refusal::WrongMaster));
    assert_eq!(pages(&bytes[1..], 0, &mut []), Err(Refusal::WrongMaster));
    assert_eq!(pages(&bytes, rows + 1, &mut []), Err(Refusal::UnsoundRow));
    assert_eq!(pages(&bytes, rows, &mut []), Err(Refusal::ShortPages));
}
