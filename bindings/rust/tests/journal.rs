//! apply_journaled and take_back through the wrapper: journals worked out byte by byte, the refusals 25 and 26 by each of their
//! causes, and every prefix and every changed bit of a journal.

mod text;

use fantanolive::{apply, apply_journaled, find, journal_size, take_back, Refusal, RECORD, ROW};
use text::{ebcdic, filled, record};

/// A live row of an amount, 00 cents.
fn row(ssn: usize, dollars: usize) -> Vec<u8> {
    let (key, dollars) = (format!("OH{ssn:09}N000"), format!("{dollars:08}"));
    let mut row = filled(
        ROW,
        &[
            (1, &key),
            (31, "SMITH"),
            (51, "JOHN"),
            (66, &dollars),
            (79, "000000000000"),
            (197, "00"),
        ],
    );
    row[194] = 0;
    row
}

/// The same row deleted.
fn deleted(ssn: usize) -> Vec<u8> {
    let mut row = row(ssn, 0);
    row[195] = 0xC4;
    row
}

/// A detail of a type for SMITH JOHN.
fn detail(kind: &str, ssn: usize, dollars: usize) -> Vec<u8> {
    let (ssn, dollars) = (format!("{ssn:09}"), format!("{dollars:08}"));
    record(&[
        (1, "OH"),
        (6, &ssn),
        (30, "SMITH"),
        (50, "JOHN"),
        (65, &dollars),
        (73, kind),
        (74, "N"),
    ])
}

/// Details and their control record.
fn batch(details: &[Vec<u8>]) -> Vec<u8> {
    let amounts: usize = details
        .iter()
        .filter(|d| d[72] == ebcdic("A")[0] || d[72] == ebcdic("M")[0])
        .map(|d| {
            d[64..72]
                .iter()
                .fold(0, |n, b| n * 10 + usize::from(b - 0xF0))
        })
        .sum();
    let totals = format!("{:09}{:09}{:011}{:011}", 0, details.len(), 0, amounts);
    let mut batch = details.concat();
    batch.extend(record(&[(1, "OHCTL"), (6, &totals)]));
    batch
}

/// A master with a place to spare for each detail, marked.
fn with_space(rows: &[Vec<u8>], details: usize) -> Vec<u8> {
    let mut master = rows.concat();
    master.resize((rows.len() + details) * ROW, 0xAA);
    master
}

/// What a batch leaves: the master, its row count and the journal. `apply` leaves the same beside the journal.
fn journaled(rows: &[Vec<u8>], details: &[Vec<u8>]) -> (Vec<u8>, usize, Vec<u8>) {
    let sent = batch(details);
    let mut master = with_space(rows, details.len());
    let mut plain = master.clone();
    let (mut verdicts, mut plain_verdicts) =
        (vec![7; details.len() + 1], vec![7; details.len() + 1]);
    let mut rejects = vec![0xBB; (details.len() + 2) * RECORD];
    let mut plain_rejects = rejects.clone();
    let mut journal = vec![0xCC; journal_size(details.len()) + 3];
    let (counts, length) = apply_journaled(
        &mut master,
        rows.len(),
        &sent,
        &[],
        2007,
        &mut verdicts,
        &mut rejects,
        &mut journal,
    )
    .expect("the batch is carried out");
    let plain_counts = apply(
        &mut plain,
        rows.len(),
        &sent,
        &[],
        2007,
        &mut plain_verdicts,
        &mut plain_rejects,
    );
    assert_eq!(plain_counts, Ok(counts));
    assert!(plain == master && plain_verdicts == verdicts && plain_rejects == rejects);
    assert!(journal[length as usize..].iter().all(|&b| b == 0xCC));
    journal.truncate(length as usize);
    (master, counts.rows as usize, journal)
}

/// The journal of a batch, which takes the batch back; bytes behind the old rows are kept.
fn journal_of(rows: &[Vec<u8>], details: &[Vec<u8>]) -> Vec<u8> {
    let (left, count, journal) = journaled(rows, details);
    let mut master = left.clone();
    assert_eq!(
        take_back(&mut master, count, &journal),
        Ok(rows.len() as u64)
    );
    let end = rows.len() * ROW;
    assert_eq!(master[..end], rows.concat());
    assert_eq!(master[end..], left[end..]);
    journal
}

fn rows_from(first: usize, count: usize) -> Vec<Vec<u8>> {
    (0..count).map(|i| row(first + i, 25)).collect()
}

#[test]
fn counts_in_groups_of_seven_bits() {
    let groups: [(usize, &[u8]); 5] = [
        (0, &[0x00]),
        (127, &[0x7F]),
        (128, &[0x80, 0x01]),
        (16_383, &[0xFF, 0x7F]),
        (16_384, &[0x80, 0x80, 0x01]),
    ];
    for (count, bytes) in groups {
        let ssn = |i: usize| 100_010_001 + 10_000 * (i / 9_999) + i % 9_999;
        let rows: Vec<_> = (0..count).map(|i| row(ssn(i), 25)).collect();
        assert_eq!(
            journal_of(&rows, &[]),
            [bytes, bytes].concat(),
            "{count} rows"
        );
    }
}

#[test]
fn places_behind_others() {
    let rows = rows_from(100_010_001, 300);
    let journal = journal_of(
        &rows,
        &[
            detail("M", 100_010_300, 30),
            detail("M", 100_010_128, 31),
            detail("M", 100_010_129, 32),
        ],
    );
    let entries = [
        vec![0xAC, 0x02, 0xAC, 0x02],
        [vec![0x7F, 1], row(100_010_128, 25)].concat(),
        [vec![0x80, 0x01, 1], row(100_010_129, 25)].concat(),
        [vec![0xAB, 0x02, 1], row(100_010_300, 25)].concat(),
    ];
    assert_eq!(journal, entries.concat());
}

#[test]
fn nothing_changes() {
    let rows = rows_from(123_456_001, 2);
    assert_eq!(journal_of(&rows, &[]), [2, 2]);
    let same = [detail("M", 123_456_001, 25), detail("M", 123_456_003, 30)];
    assert_eq!(journal_of(&rows, &same), [2, 2]);
    let back = [detail("M", 123_456_001, 30), detail("M", 123_456_001, 25)];
    assert_eq!(journal_of(&rows, &back), [2, 2]);
    assert_eq!(journal_of(&[], &[]), [0, 0]);
}

#[test]
fn new_and_changed_rows() {
    let (first, third) = (row(123_456_001, 25), row(123_456_003, 25));
    let rows = [first.clone(), third.clone()];
    let new = [detail("A", 123_456_002, 40)];
    assert_eq!(journal_of(&rows, &new), [2, 3, 1, 0]);
    let gone = [detail("A", 123_456_002, 40), detail("D", 123_456_002, 0)];
    assert_eq!(journal_of(&rows, &gone), [2, 3, 1, 0]);
    let changed = [detail("M", 123_456_003, 26)];
    assert_eq!(
        journal_of(&rows, &changed),
        [vec![2, 2, 1, 1], third.clone()].concat()
    );
    let dead = deleted(123_456_003);
    let live = [detail("A", 123_456_003, 50)];
    assert_eq!(
        journal_of(&[first.clone(), dead.clone()], &live),
        [vec![2, 2, 1, 1], dead].concat()
    );
    let all = [
        detail("M", 123_456_003, 26),
        detail("A", 123_456_002, 40),
        detail("D", 123_456_001, 0),
        detail("A", 123_456_004, 40),
    ];
    let entries = [vec![2, 4, 0, 1], first, vec![1, 0, 2, 1], third, vec![3, 0]];
    assert_eq!(journal_of(&rows, &all), entries.concat());
}

#[test]
fn refusal_25_behind_11() {
    let details = [detail("A", 123_456_002, 40)];
    let sent = batch(&details);
    let run = |rejects: usize, length: usize| {
        let mut master = with_space(&[], 1);
        let mut verdicts = [7];
        let mut rejected = vec![0xBB; rejects];
        let mut journal = vec![0xCC; length];
        let answer = apply_journaled(
            &mut master,
            0,
            &sent,
            &[],
            2007,
            &mut verdicts,
            &mut rejected,
            &mut journal,
        );
        if answer.is_err() {
            assert!(master == with_space(&[], 1) && verdicts == [7]);
            assert!(rejected.iter().all(|&b| b == 0xBB) && journal.iter().all(|&b| b == 0xCC));
        }
        answer.map(|(_, length)| length)
    };
    assert_eq!(run(2 * RECORD - 1, 216), Err(Refusal::ShortOutput));
    assert_eq!(run(2 * RECORD, 216), Err(Refusal::ShortJournal));
    assert_eq!(run(2 * RECORD, 0), Err(Refusal::ShortJournal));
    assert_eq!(run(2 * RECORD, 217), Ok(4));
    assert_eq!(journal_size(1), 217);
}

/// Taking back with a journal is refused with 26, and the master is kept.
fn wrong(master: &[u8], rows: usize, journal: &[u8]) {
    let mut lent = master.to_vec();
    assert_eq!(
        take_back(&mut lent, rows, journal),
        Err(Refusal::WrongJournal),
        "{:?}",
        &journal[..journal.len().min(8)]
    );
    assert_eq!(lent, master);
}

#[test]
fn refusal_26_for_each_cause() {
    let (first, second, third) = (
        row(123_456_001, 25),
        row(123_456_002, 40),
        row(123_456_003, 25),
    );
    let master = [first.clone(), second.clone(), third.clone()].concat();
    let taken = |journal: &[u8]| take_back(&mut master.clone(), 3, journal);
    // the byte form
    assert_eq!(taken(&[3, 3]), Ok(3));
    wrong(&master, 3, &[]);
    wrong(&master, 3, &[3]);
    wrong(&master, 3, &[3, 0x83]);
    wrong(&master, 3, &[0x83, 0x00, 3]);
    wrong(&master, 3, &[3, 0x83, 0x80, 0x00]);
    wrong(&master, 3, &[3, 3, 0]);
    assert_eq!(taken(&[2, 3, 1, 0]), Ok(2));
    wrong(&master, 3, &[2, 3, 1, 2]);
    wrong(&master, 3, &[2, 3, 1, 0, 0]);
    let changed = [vec![3, 3, 1, 1], row(123_456_002, 30)].concat();
    assert_eq!(taken(&changed), Ok(3));
    wrong(&master, 3, &changed[..203]);
    wrong(&master, 3, &[changed.clone(), vec![0]].concat());
    // numbers of many groups
    wrong(
        &master,
        3,
        &[
            3, 0x83, 0x80, 0x80, 0x80, 0x80, 0x80, 0x80, 0x80, 0x80, 0x80, 0x01,
        ],
    );
    wrong(&master, 3, &[[0xFF; 300].to_vec(), vec![0x01, 3]].concat());
    // it doesn't fit
    wrong(&master, 3, &[2, 2]);
    wrong(&master, 2, &[3, 3]);
    wrong(&master, 3, &[2, 3, 3, 0]);
    wrong(&master, 3, &[3, 3, 1, 0]);
    wrong(&master, 3, &[1, 3, 1, 0]);
    wrong(&master, 3, &[4, 3]);
    // places
    assert_eq!(taken(&[1, 3, 1, 0, 2, 0]), Ok(1));
    wrong(&master, 3, &[1, 3, 2, 0, 1, 0]);
    wrong(&master, 3, &[1, 3, 1, 0, 1, 0]);
    // what is left
    wrong(&master, 3, &[vec![3, 3, 1, 1], vec![0x40; ROW]].concat());
    wrong(&master, 3, &[vec![3, 3, 1, 1], first.clone()].concat());
    wrong(
        &master,
        3,
        &[vec![3, 3, 1, 1], row(123_456_004, 25)].concat(),
    );
    // an old row may have another key where the order stays
    let other = [vec![3, 3, 2, 1], row(123_456_009, 25)].concat();
    assert_eq!(taken(&other), Ok(3));
}

#[test]
fn refusals_3_and_4_come_first() {
    let mut master = [row(123_456_002, 25), row(123_456_001, 25)].concat();
    assert_eq!(take_back(&mut master, 2, &[]), Err(Refusal::UnsoundRow));
    assert_eq!(take_back(&mut master, 3, &[]), Err(Refusal::WrongMaster));
    assert_eq!(
        take_back(&mut master[..399], 1, &[]),
        Err(Refusal::WrongMaster)
    );
}

#[test]
fn another_master_and_twice() {
    let rows = rows_from(123_456_001, 3);
    let details = [detail("M", 123_456_002, 30), detail("A", 123_456_004, 40)];
    let (left, count, journal) = journaled(&rows, &details);
    wrong(&left, 3, &journal);
    let mut master = left.clone();
    assert_eq!(take_back(&mut master, count, &journal), Ok(3));
    wrong(&master, 3, &journal);
    // from a buffer of another length
    let mut longer = left.clone();
    longer.extend([0x77; ROW]);
    assert_eq!(take_back(&mut longer, count, &journal), Ok(3));
    let mut exact = left[..count * ROW].to_vec();
    assert_eq!(take_back(&mut exact, count, &journal), Ok(3));
    assert_eq!(exact[..3 * ROW], rows.concat());
}

#[test]
fn every_prefix_and_every_bit() {
    let rows = rows_from(123_456_001, 3);
    let details = [
        detail("M", 123_456_002, 30),
        detail("A", 123_456_004, 40),
        detail("D", 123_456_003, 0),
    ];
    let (left, count, journal) = journaled(&rows, &details);
    for length in 0..journal.len() {
        wrong(&left, count, &journal[..length]);
    }
    for bit in 0..8 * journal.len() {
        let mut damaged = journal.clone();
        damaged[bit / 8] ^= 1 << (bit % 8);
        let mut master = left.clone();
        match take_back(&mut master, count, &damaged) {
            Ok(after) => {
                let key = master[..12].to_vec();
                assert_eq!(
                    find(&master, after as usize, &key),
                    Ok(0),
                    "bit {bit} leaves an unsound master"
                );
            }
            Err(refusal) => {
                assert_eq!(refusal, Refusal::WrongJournal, "bit {bit}");
                assert_eq!(master, left);
            }
        }
    }
}
