//! Item 8 of document 02: journals and taking back, worked by hand.

use super::{add, control, live_row, put, record};
use crate::batch::{apply, RECORD};
use crate::journal::*;
use crate::row::{row_key, Row, ROW};

/// What applying with a journal leaves.
struct Applied {
    master: Vec<u8>,
    rows: usize,
    journal: Vec<u8>,
}

/// A control record of OH for Non-TANF details.
fn closed(details: &[[u8; RECORD]], amount: u64) -> Vec<u8> {
    let control = control([0, details.len() as u64, 0, amount]);
    [details.concat(), control.to_vec()].concat()
}

/// Applies details to rows with room for two more; the amounts of A and M come to `amount`.
fn applied(rows: &[Row], details: &[[u8; RECORD]], amount: u64) -> Applied {
    let (batch, count) = (closed(details, amount), details.len());
    let mut master = [rows.concat(), vec![7; 2 * ROW]].concat();
    let mut plain = master.clone();
    let mut buffer = vec![9; 12 + 205 * count + 1];
    let (mut verdicts, mut rejects) = (vec![8; count + 1], vec![6; RECORD * (count + 1)]);
    let (mut numbers, mut records) = (verdicts.clone(), rejects.clone());
    let (counts, length) = apply_journaled(
        &mut master,
        rows.len(),
        &batch,
        &[],
        2007,
        &mut verdicts,
        &mut rejects,
        &mut buffer,
    )
    .unwrap();
    let same = apply(
        &mut plain,
        rows.len(),
        &batch,
        &[],
        2007,
        &mut numbers,
        &mut records,
    );
    assert_eq!(same, Ok(counts));
    assert!(master == plain && verdicts == numbers && rejects == records);
    let behind = buffer.split_off(length as usize);
    assert!(behind.iter().all(|&byte| byte == 9) && !behind.is_empty());
    Applied {
        master,
        rows: counts.rows as usize,
        journal: buffer,
    }
}

/// The journal, once it has been taken back: the old count and rows, what stands behind them kept.
fn journal(rows: &[Row], details: &[[u8; RECORD]], amount: u64) -> Vec<u8> {
    let done = applied(rows, details, amount);
    let mut master = done.master.clone();
    let before = take_back(&mut master, done.rows, &done.journal);
    assert_eq!(before, Ok(rows.len() as u64));
    let old = rows.len() * ROW;
    assert_eq!(master[..old], rows.concat());
    assert_eq!(master[old..], done.master[old..]);
    done.journal
}

/// Live rows of OH 900000000 N and on.
fn numbered(count: usize) -> Vec<Row> {
    (0..count)
        .map(|number| {
            let mut row = live_row();
            put(&mut row, 3, &format!("{}", 900_000_000 + number));
            row
        })
        .collect()
}

/// A record of the row's key.
fn of(row: &Row, mut record: [u8; RECORD]) -> [u8; RECORD] {
    record[5..14].copy_from_slice(&row_key(row)[2..11]);
    record
}

fn modify(amount: &str) -> [u8; RECORD] {
    record("M", "SMITH", amount)
}

fn deleted_row() -> Row {
    let mut row = live_row();
    put(&mut row, 66, "00000000");
    put(&mut row, 196, "D");
    row
}

/// Bytes before a row.
fn entry(front: &[u8], old: &Row) -> Vec<u8> {
    [front, old].concat()
}

const FORMS: [(u64, &[u8]); 12] = [
    (0, &[0x00]),
    (1, &[0x01]),
    (127, &[0x7F]),
    (128, &[0x80, 0x01]),
    (129, &[0x81, 0x01]),
    (16_383, &[0xFF, 0x7F]),
    (16_384, &[0x80, 0x80, 0x01]),
    (65_535, &[0xFF, 0xFF, 0x03]),
    (2_097_151, &[0xFF, 0xFF, 0x7F]),
    (2_097_152, &[0x80, 0x80, 0x80, 0x01]),
    (16_777_215, &[0xFF, 0xFF, 0xFF, 0x07]),
    (268_435_455, &[0xFF, 0xFF, 0xFF, 0x7F]),
];

#[test]
fn numbers() {
    for (number, form) in FORMS {
        let mut bytes = Vec::new();
        write_number(&mut bytes, number);
        assert_eq!(bytes, form);
        bytes.push(0x55);
        let mut rest = &bytes[..];
        assert_eq!(read_number(&mut rest), Some(number));
        assert_eq!(rest, [0x55]);
        // A cut and a longer form.
        assert_eq!(read_number(&mut &form[..form.len() - 1]), None);
        let mut longer = form.to_vec();
        longer[form.len() - 1] |= 0x80;
        assert_eq!(read_number(&mut &longer[..]), None);
        longer.push(0);
        assert_eq!(read_number(&mut &longer[..]), None);
    }
    let most = [0xFF, 0xFF, 0xFF, 0xFF, 0xFF, 0xFF, 0xFF, 0xFF, 0xFF, 0x01];
    assert_eq!(read_number(&mut &most[..]), Some(u64::MAX));
    let beyond = [&[0x80; 9][..], &[0x02]].concat();
    assert_eq!(read_number(&mut &beyond[..]), Some(TOO_LARGE));
    let far_beyond = [&[0x80; 400][..], &[0x01]].concat();
    assert_eq!(read_number(&mut &far_beyond[..]), Some(TOO_LARGE));
}

#[test]
fn counts_without_entries() {
    let counts: [(usize, &[u8]); 5] = [
        (0, &[0x00, 0x00]),
        (127, &[0x7F, 0x7F]),
        (128, &[0x80, 0x01, 0x80, 0x01]),
        (16_383, &[0xFF, 0x7F, 0xFF, 0x7F]),
        (16_384, &[0x80, 0x80, 0x01, 0x80, 0x80, 0x01]),
    ];
    for (count, expected) in counts {
        assert_eq!(journal(&numbered(count), &[], 0), expected);
    }
}

#[test]
fn nothing_changed() {
    let rows = [live_row()];
    // The same amount, a rejected record, and a change that is changed back.
    assert_eq!(journal(&rows, &[modify("00000025")], 25), [1, 1]);
    let wrong = record("M", "SMYTH", "00000100");
    assert_eq!(journal(&rows, &[wrong], 100), [1, 1]);
    let back = [modify("00000100"), modify("00000025")];
    assert_eq!(journal(&rows, &back, 125), [1, 1]);
}

#[test]
fn one_entry() {
    let (row, gone) = (live_row(), deleted_row());
    let (delete, anew) = (record("D", "SMITH", ""), add("00000025"));
    // Changed, and deleted.
    let old = entry(&[1, 1, 0, 1], &row);
    assert_eq!(journal(&[row], &[modify("00000100")], 100), old);
    assert_eq!(journal(&[row], &[delete], 0), old);
    // New; new and deleted at once.
    assert_eq!(journal(&[], &[anew], 25), [0, 1, 0, 0]);
    assert_eq!(journal(&[], &[anew, delete], 25), [0, 1, 0, 0]);
    // A deleted row made live.
    assert_eq!(journal(&[gone], &[anew], 25), entry(&[1, 1, 0, 1], &gone));
    // Several changes of a key: the row at entry.
    let twice = [modify("00000100"), modify("00000200")];
    assert_eq!(journal(&[row], &twice, 300), old);
}

#[test]
fn places_after_the_batch() {
    // 900000000 and 900000002 are rows; 123456789 and 900000001 come to stand before them.
    let rows = [numbered(3)[0], numbered(3)[2]];
    let details = [
        of(&rows[1], modify("00000100")),
        of(&numbered(2)[1], add("00000025")),
        add("00000025"),
    ];
    let expected = [&[2, 4, 0, 0, 2, 0][..], &entry(&[3, 1], &rows[1])].concat();
    assert_eq!(journal(&rows, &details, 150), expected);
}

#[test]
fn places_of_two_groups() {
    let rows = numbered(130);
    let details = [127, 128, 129].map(|place: usize| of(&rows[place], modify("00000100")));
    let expected = [
        entry(&[0x82, 0x01, 0x82, 0x01, 0x7F, 0x01], &rows[127]),
        entry(&[0x80, 0x01, 0x01], &rows[128]),
        entry(&[0x81, 0x01, 0x01], &rows[129]),
    ];
    assert_eq!(journal(&rows, &details, 300), expected.concat());
}

#[test]
fn room_for_the_journal() {
    let details = [modify("00000100"), record("M", "SMYTH", "00000100")];
    for (details, amount) in [(&details[..], 200), (&details[..1], 100), (&[], 0)] {
        let (batch, count) = (closed(details, amount), details.len());
        let enough = 12 + 205 * count;
        for (rejects, length, answer) in [
            (245 * (count + 1), enough, Ok(())),
            (245 * (count + 1), enough - 1, Err(25)),
            (245 * (count + 1), 0, Err(25)),
            (245 * (count + 1) - 1, enough - 1, Err(11)),
        ] {
            let mut master = live_row();
            let (mut verdicts, mut rejects) = ([8; 2], vec![6; rejects]);
            let mut buffer = vec![9; length];
            let done = apply_journaled(
                &mut master,
                1,
                &batch,
                &[],
                2007,
                &mut verdicts,
                &mut rejects,
                &mut buffer,
            );
            assert_eq!(done.map(|_| ()), answer);
            if answer.is_err() {
                assert!(master == live_row() && verdicts == [8; 2]);
                assert!(rejects.iter().all(|&byte| byte == 6));
                assert!(buffer.iter().all(|&byte| byte == 9));
            }
        }
    }
}

#[test]
fn an_earlier_refusal() {
    let batch = closed(&[], 0);
    let apply = |rows: usize, year: u64| {
        apply_journaled(
            &mut [],
            rows,
            &batch,
            &[],
            year,
            &mut [],
            &mut [5; 245],
            &mut [],
        )
    };
    assert_eq!(apply(0, 1899), Err(1));
    assert_eq!(apply(1, 2007), Err(3));
    assert_eq!(apply(0, 2007), Err(25));
}

/// Why a journal isn't taken back from a master of rows, which keeps every byte.
fn cause(rows: &[Row], journal: &[u8]) -> Cause {
    let mut master = [rows.concat(), vec![7; ROW]].concat();
    let before = master.clone();
    assert_eq!(take_back(&mut master, rows.len(), journal), Err(26));
    assert_eq!(master, before);
    taken(&master, rows.len(), journal).unwrap_err()
}

/// The rows left of a master of rows.
fn left(rows: &[Row], journal: &[u8]) -> Vec<u8> {
    let mut master = rows.concat();
    let count = take_back(&mut master, rows.len(), journal).unwrap() as usize;
    master.truncate(count * ROW);
    master
}

#[test]
fn byte_form() {
    let rows = [live_row()];
    let right = entry(&[1, 1, 0, 1], &rows[0]);
    assert_eq!(left(&rows, &right), rows[0]);
    // Every cut but that behind the counts.
    for length in (0..right.len()).filter(|&length| length != 2) {
        assert_eq!(cause(&rows, &right[..length]), Cause::Form, "{length}");
    }
    assert_eq!(left(&rows, &right[..2]), rows[0]);
    // A byte more: a place without a mark.
    for byte in [0x00, 0x01, 0x40, 0x80, 0xFF] {
        let longer = [&right[..], &[byte]].concat();
        assert_eq!(cause(&rows, &longer), Cause::Form);
    }
    // Another mark.
    for mark in [0x02, 0x40, 0x80, 0x81, 0xFF] {
        let other = entry(&[1, 1, 0, mark], &rows[0]);
        assert_eq!(cause(&rows, &other), Cause::Form);
    }
    // Each of the three numbers in a longer form.
    for front in [
        &[0x81, 0, 1, 0, 1][..],
        &[1, 0x81, 0, 0, 1],
        &[1, 1, 0x80, 0, 1],
        &[1, 1, 0x80, 0x80, 0, 1],
    ] {
        assert_eq!(cause(&rows, &entry(front, &rows[0])), Cause::Form);
    }
}

#[test]
fn another_master() {
    let rows = numbered(2);
    let right = entry(&[2, 2, 1, 1], &rows[1]);
    assert_eq!(left(&rows, &right), rows.concat());
    assert_eq!(cause(&rows[..1], &right), Cause::Count);
    assert_eq!(cause(&numbered(3), &right), Cause::Count);
    assert_eq!(cause(&[], &right), Cause::Count);
    // A count beyond all masters.
    let beyond = [&[0x80; 20][..], &[1]].concat();
    assert_eq!(cause(&rows, &[&[2][..], &beyond].concat()), Cause::Count);
    assert_eq!(cause(&rows, &[&beyond[..], &[2]].concat()), Cause::Marks);
}

#[test]
fn places_and_marks() {
    let rows = numbered(3);
    assert_eq!(cause(&rows, &[2, 3, 3, 0]), Cause::Place);
    assert_eq!(cause(&rows, &[2, 3, 0x80, 1, 0]), Cause::Place);
    assert_eq!(cause(&rows, &entry(&[3, 3, 3, 1], &rows[2])), Cause::Place);
    assert_eq!(left(&rows, &[2, 3, 2, 0]), rows[..2].concat());
    // Marks 00 and the count's growth.
    assert_eq!(cause(&rows, &[3, 3, 2, 0]), Cause::Marks);
    assert_eq!(cause(&rows, &[1, 3, 2, 0]), Cause::Marks);
    assert_eq!(cause(&rows, &[2, 3]), Cause::Marks);
    assert_eq!(cause(&rows, &[4, 3]), Cause::Marks);
    assert_eq!(cause(&rows, &entry(&[2, 3, 0, 1], &rows[0])), Cause::Marks);
    // Order.
    assert_eq!(cause(&rows, &[1, 3, 1, 0, 1, 0]), Cause::Order);
    assert_eq!(cause(&rows, &[1, 3, 2, 0, 1, 0]), Cause::Order);
    let twice = [&entry(&[2, 3, 1, 1], &rows[1])[..], &[1, 0]].concat();
    assert_eq!(cause(&rows, &twice), Cause::Order);
    assert_eq!(left(&rows, &[1, 3, 1, 0, 2, 0]), rows[0]);
    assert_eq!(left(&rows, &[0, 3, 0, 0, 1, 0, 2, 0]), []);
}

#[test]
fn what_is_left() {
    let rows = numbered(3);
    let with = |place: u8, old: &Row| entry(&[3, 3, place, 1], old);
    let (mut below, mut same, mut faulty) = (rows[1], rows[1], rows[1]);
    put(&mut below, 3, "900000000");
    put(&mut same, 3, "900000002");
    put(&mut faulty, 66, "0000002 ");
    assert_eq!(cause(&rows, &with(1, &below)), Cause::Unsound);
    assert_eq!(cause(&rows, &with(1, &same)), Cause::Unsound);
    assert_eq!(cause(&rows, &with(1, &faulty)), Cause::Unsound);
    // A key that didn't stand there, in its order.
    let other = live_row();
    let expected = [&other[..], &rows[1], &rows[2]].concat();
    assert_eq!(left(&rows, &with(0, &other)), expected);
    // The order counts over what is left: the first row is taken out, its key put second.
    let journal = [&[2, 3, 0, 0][..], &entry(&[1, 1], &below)].concat();
    assert_eq!(left(&rows, &journal), [below, rows[2]].concat());
}

#[test]
fn taken_back_twice() {
    let rows = numbered(2);
    let done = applied(&rows, &[add("00000025")], 25);
    let mut master = done.master.clone();
    assert_eq!(take_back(&mut master, 3, &done.journal), Ok(2));
    let once = master.clone();
    assert_eq!(take_back(&mut master, 2, &done.journal), Err(26));
    assert_eq!(master, once);
    // Without a new row the journal fits once more, and nothing changes.
    let done = applied(&rows, &[of(&rows[0], modify("00000100"))], 100);
    let mut master = done.master.clone();
    assert_eq!(take_back(&mut master, 2, &done.journal), Ok(2));
    assert_eq!(take_back(&mut master, 2, &done.journal), Ok(2));
    assert_eq!(master[..2 * ROW], rows.concat());
}

#[test]
fn masters_first() {
    let mut master = live_row();
    assert_eq!(take_back(&mut master, 2, &[]), Err(3));
    assert_eq!(take_back(&mut master[..199], 0, &[]), Err(3));
    assert_eq!(take_back(&mut master, usize::MAX, &[]), Err(3));
    assert_eq!(take_back(&mut master, 1, &[]), Err(26));
    assert_eq!(take_back(&mut [], 0, &[0, 0]), Ok(0));
    put(&mut master, 66, "        ");
    assert_eq!(take_back(&mut master, 1, &[]), Err(4));
    assert_eq!(take_back(&mut master, 0, &[0, 0]), Ok(0));
}

#[test]
fn there_back_and_there() {
    let rows = [live_row(), numbered(1)[0]];
    let details = [
        record("D", "SMITH", ""),
        of(&numbered(2)[1], add("00000030")),
        of(&rows[1], record("L", "SMITH", "")),
        add("00000040"),
    ];
    let first = applied(&rows, &details, 70);
    let mut master = first.master.clone();
    assert_eq!(take_back(&mut master, first.rows, &first.journal), Ok(2));
    let mut old = [[0; ROW]; 2];
    old[0].copy_from_slice(&master[..ROW]);
    old[1].copy_from_slice(&master[ROW..2 * ROW]);
    assert_eq!(old, rows);
    let again = applied(&old, &details, 70);
    assert_eq!(again.master, first.master);
    assert_eq!(again.journal, first.journal);
}
