//! Journals through the library: every cut and every bit of a real one, and the calls with many rows
//! and details, which random cases seldom reach.

use fantanolive::raw;
use generator::bulk;
use generator::journal::enough;
use generator::records::{control, totals, Record, RECORD};
use generator::rng::Rng;
use generator::text::text;
use reference::row::{refusal_04, ROW};

const STATE: [u8; 2] = [0xD6, 0xC8];
const MANY: usize = 65_537;

/// What a journaled batch leaves.
#[derive(PartialEq)]
struct Applied {
    answer: u64,
    result: [u64; 6],
    master: Vec<u8>,
    verdicts: Vec<u64>,
    rejects: Vec<u8>,
    journal: Vec<u8>,
}

/// Buffers before a batch: a mark in every place.
fn fresh(master: &[u8], details: usize, journal: usize) -> Applied {
    Applied {
        answer: 0,
        result: [77; 6],
        master: master.to_vec(),
        verdicts: vec![0xEE; details],
        rejects: vec![0xEE; RECORD * (details + 1)],
        journal: vec![0xEE; journal],
    }
}

fn batch(details: &[Record]) -> Vec<u8> {
    let control = control(STATE, totals(details));
    [details.concat(), control.to_vec()].concat()
}

/// By the library.
fn applied(master: &[u8], rows: usize, details: &[Record], journal: usize) -> Applied {
    let mut out = fresh(master, details.len(), journal);
    out.answer = raw::apply_journaled(
        &mut out.master,
        rows,
        &batch(details),
        &text("001002"),
        2007,
        &mut out.verdicts,
        &mut out.rejects,
        &mut out.journal,
        &mut out.result,
    );
    out
}

/// By the reference.
fn expected(master: &[u8], rows: usize, details: &[Record], journal: usize) -> Applied {
    let mut out = fresh(master, details.len(), journal);
    let done = reference::apply_journaled(
        &mut out.master,
        rows,
        &batch(details),
        &text("001002"),
        2007,
        &mut out.verdicts,
        &mut out.rejects,
        &mut out.journal,
    );
    match done {
        Ok((counts, length)) => {
            out.result = [
                counts.accepted,
                counts.rejected,
                counts.warned,
                counts.neither,
                counts.rows,
                length,
            ];
        }
        Err(number) => out.answer = number,
    }
    out
}

/// Answer, result and master of taking back, by the library; the reference gives the same.
fn taken_back(master: &[u8], rows: usize, journal: &[u8]) -> (u64, u64, Vec<u8>) {
    let (mut one, mut two, mut rows_after) = (master.to_vec(), master.to_vec(), 77);
    let answer = raw::take_back(&mut one, rows, journal, &mut rows_after);
    let expected = match reference::take_back(&mut two, rows, journal) {
        Ok(rows) => (0, rows),
        Err(number) => (number, 77),
    };
    assert_eq!((answer, rows_after), expected);
    assert!(one == two);
    (answer, rows_after, one)
}

/// Rows with even numbers; adds between them, and changes of every type.
fn mixed() -> (Vec<u8>, Vec<Record>) {
    let mut rng = Rng::new(5);
    let master = [bulk::rows(STATE, 5, 2), vec![0xA5; 3 * ROW]].concat();
    let mut details: Vec<Record> = [1, 5, 9]
        .iter()
        .map(|&number| bulk::add(STATE, number))
        .collect();
    for number in [0, 4, 8] {
        details.push(bulk::change(&mut rng, STATE, number, b"MCLRZST"));
    }
    (master, details)
}

#[test]
fn every_cut_and_every_bit() {
    let (master, details) = mixed();
    let done = applied(&master, 5, &details, enough(6));
    assert_eq!((done.answer, done.result[4]), (0, 8));
    let journal = &done.journal[..done.result[5] as usize];
    // Two counts, three entries 00 and three 01.
    assert_eq!(journal.len(), 2 + 3 * 2 + 3 * 202);
    let (answer, rows, left) = taken_back(&done.master, 8, journal);
    assert_eq!((answer, rows), (0, 5));
    assert!(left[..5 * ROW] == master[..5 * ROW] && left[5 * ROW..] == done.master[5 * ROW..]);
    let sound_or_26 = |damaged: &[u8]| {
        let (answer, rows, left) = taken_back(&done.master, 8, damaged);
        match answer {
            0 => assert!(!refusal_04(&left, rows as usize)),
            _ => assert!(answer == 26 && left == done.master),
        }
        answer
    };
    // The last entry is a 00: every cut lacks it.
    for length in 0..journal.len() {
        assert_eq!(sound_or_26(&journal[..length]), 26);
    }
    let mut carried_out = 0;
    for at in 0..journal.len() {
        for bit in 0..8 {
            let mut damaged = journal.to_vec();
            damaged[at] ^= 1 << bit;
            carried_out += u64::from(sound_or_26(&damaged) == 0);
        }
    }
    assert!(carried_out > 0 && carried_out < 8 * journal.len() as u64);
    for byte in 0..=255 {
        assert_eq!(sound_or_26(&[journal, &[byte]].concat()), 26);
    }
}

#[test]
fn cuts_between_changes() {
    let (master, details) = mixed();
    let done = applied(&master, 5, &details[3..], enough(3));
    let journal = &done.journal[..done.result[5] as usize];
    assert_eq!(journal.len(), 2 + 3 * 202);
    for length in 0..=journal.len() {
        // Behind the counts and behind each entry it is a journal as well.
        let whole = length % 202 == 2;
        let (answer, _, left) = taken_back(&done.master, 5, &journal[..length]);
        assert_eq!(answer == 0, whole, "{length}");
        let back = left[..5 * ROW] == master[..5 * ROW];
        assert_eq!(back, length == journal.len());
    }
}

#[test]
fn room_for_the_journal() {
    let (master, details) = mixed();
    for (count, length, answer) in [
        (6, enough(6), 0),
        (6, enough(6) - 1, 25),
        (6, 0, 25),
        (1, enough(1), 0),
        (1, enough(1) - 1, 25),
        (0, 12, 0),
        (0, 11, 25),
        (0, 0, 25),
    ] {
        let done = applied(&master, 5, &details[..count], length);
        assert_eq!(done.answer, answer);
        assert!(done == expected(&master, 5, &details[..count], length));
    }
    // By the number of details, not of those accepted: nothing is entered here.
    let mut wrong = details[..2].to_vec();
    for record in &mut wrong {
        record[227] = 0xF0;
    }
    let done = applied(&master, 5, &wrong, enough(2));
    assert_eq!((done.answer, done.result[1], done.result[5]), (0, 2, 2));
    assert_eq!(applied(&master, 5, &wrong, enough(2) - 1).answer, 25);
}

#[test]
fn refused_before_25() {
    let (master, details) = mixed();
    let short = |rows: usize, details: &[Record]| applied(&master, rows, details, 0).answer;
    assert_eq!(short(9, &details), 3);
    assert_eq!(short(6, &details), 4);
    let wrong = control(STATE, [9, 9, 9, 9]);
    let mut out = fresh(&master, 0, 0);
    let answer = raw::apply_journaled(
        &mut out.master,
        5,
        &wrong,
        &[],
        2007,
        &mut out.verdicts,
        &mut out.rejects,
        &mut out.journal,
        &mut out.result,
    );
    assert_eq!((answer, out.result), (7, [77; 6]));
    // 9, 10 and 11.
    assert_eq!(applied(&master[..7 * ROW], 5, &details, 0).answer, 9);
    for (verdicts, rejects, answer) in [(5, 7 * RECORD, 10), (6, 7 * RECORD - 1, 11)] {
        let mut out = fresh(&master, 6, 0);
        out.verdicts.truncate(verdicts);
        out.rejects.truncate(rejects);
        let given = raw::apply_journaled(
            &mut out.master,
            5,
            &batch(&details),
            &text("001002"),
            2007,
            &mut out.verdicts,
            &mut out.rejects,
            &mut out.journal,
            &mut out.result,
        );
        assert_eq!(given, answer);
        assert!(out.master == master);
    }
}

#[test]
fn many_changes() {
    let mut rng = Rng::new(3);
    let master = bulk::rows(STATE, MANY, 2);
    let mut details: Vec<Record> = (0..MANY)
        .map(|at| bulk::change(&mut rng, STATE, 2 * at, b"MCRZST"))
        .collect();
    rng.shuffle(&mut details);
    let done = applied(&master, MANY, &details, enough(MANY));
    assert!(done == expected(&master, MANY, &details, enough(MANY)));
    assert_eq!((done.answer, done.result[0]), (0, MANY as u64));
    let journal = &done.journal[..done.result[5] as usize];
    let (answer, rows, left) = taken_back(&done.master, MANY, journal);
    assert_eq!((answer, rows), (0, MANY as u64));
    assert!(left == master);
    let short = applied(&master, MANY, &details, enough(MANY) - 1);
    assert_eq!((short.answer, short.result), (25, [77; 6]));
    assert!(short.master == master);
}

#[test]
fn many_adds() {
    let room = vec![0xA5; MANY * ROW];
    let details: Vec<Record> = (0..MANY).rev().map(|at| bulk::add(STATE, at)).collect();
    let done = applied(&room, 0, &details, enough(MANY));
    assert!(done == expected(&room, 0, &details, enough(MANY)));
    let journal = &done.journal[..done.result[5] as usize];
    assert_eq!(journal[..4], [0x00, 0x81, 0x80, 0x04]);
    let (answer, rows, left) = taken_back(&done.master, MANY, journal);
    assert_eq!((answer, rows), (0, 0));
    // No row is left, and no byte is written.
    assert!(left == done.master);
}

#[test]
fn counts_of_many_rows() {
    let master = bulk::rows(STATE, MANY + 1, 2);
    let journal = [0x81, 0x80, 0x04, 0x81, 0x80, 0x04];
    assert_eq!(taken_back(&master, MANY, &journal).0, 0);
    assert_eq!(taken_back(&master, MANY + 1, &journal).0, 26);
    assert_eq!(taken_back(&master, MANY + 2, &journal).0, 3);
    assert_eq!(taken_back(&master, MANY - 1, &journal).0, 26);
    let more = [0x82, 0x80, 0x04, 0x82, 0x80, 0x04];
    assert_eq!(taken_back(&master, MANY, &more).0, 26);
    assert_eq!(taken_back(&master, MANY + 1, &more).0, 0);
    assert_eq!(taken_back(&[], 0, &[0, 0]).0, 0);
    assert_eq!(taken_back(&[], 0, &[]).0, 26);
    assert_eq!(taken_back(&[], 1, &[0, 0]).0, 3);
}

#[test]
fn numbers_of_many_groups() {
    let master = bulk::rows(STATE, 2, 2);
    for groups in [4, 5, 9, 10, 11, 64, 1000] {
        let number = |last: u8| [vec![0x80; groups - 1], vec![last]].concat();
        for last in [0, 1, 2, 0x7F] {
            let odd = number(last);
            assert_eq!(taken_back(&master, 2, &[&odd[..], &[2]].concat()).0, 26);
            assert_eq!(taken_back(&master, 2, &[&[2], &odd[..]].concat()).0, 26);
            let place = [&[1, 2], &odd[..], &[0]].concat();
            assert_eq!(taken_back(&master, 2, &place).0, 26);
        }
    }
    // Two to the power 64 and 2, which is 2 where sixty-four bits are all that is kept.
    let wrapped = [0x82, 0x80, 0x80, 0x80, 0x80, 0x80, 0x80, 0x80, 0x80, 0x02];
    assert_eq!(taken_back(&master, 2, &[&wrapped[..], &[2]].concat()).0, 26);
    assert_eq!(taken_back(&master, 2, &[&[2], &wrapped[..]].concat()).0, 26);
}
