//! records_to through the wrapper: each field alone and all four, each cause of refusal 29 alone, all 256 sets against each other,
//! the refusals in order with every byte kept. What is written is then applied, alone in a batch, and leaves the wanted row.

mod text;

use fantanolive::{apply, records_to, Refusal, RECORD, RECORDS, ROW};
use text::{ebcdic, filled, record};

/// The list: 007 and 012.
const LIST: &str = "007012";
const NAMES: [&str; 8] = ["ADM", "RET", "VEN", "SAL", "TAX", "PAS", "FIN", "DCK"];
const SPACE: u8 = 0x40;
const MARK: u8 = 0xEE;

/// OH, SSN 123456789, N; code 007; case ID C1; SMITH JOHN; 100 dollars; else as in a fresh row.
fn smith() -> Vec<u8> {
    let mut row = filled(
        ROW,
        &[
            (1, "OH123456789N007C1"),
            (31, "SMITH"),
            (51, "JOHN"),
            (66, "00000100"),
            (79, "000000000000"),
            (197, "00"),
        ],
    );
    row[194] = 0;
    row
}

/// A row with a text from a column on.
fn with(row: &[u8], column: usize, text: &str) -> Vec<u8> {
    let mut row = row.to_vec();
    row[column - 1..column - 1 + text.len()].copy_from_slice(&ebcdic(text));
    row
}

fn with_set(row: &[u8], set: u8) -> Vec<u8> {
    let mut row = row.to_vec();
    row[194] = set;
    row
}

/// Nothing owed, deleted.
fn closed(row: &[u8]) -> Vec<u8> {
    with(&with(row, 66, "00000000"), 196, "D00")
}

/// A record of smith's key, type and name, and a text from a column on.
fn sent(kind: &str, column: usize, text: &str) -> Vec<u8> {
    record(&[
        (1, "OH"),
        (6, "123456789"),
        (30, "SMITH"),
        (73, kind),
        (74, "N"),
        (column, text),
    ])
}

/// Calls with the list and an output of 1,000 marked bytes; those behind the records are kept, and all of them on a refusal.
fn records(row: &[u8], wanted: &[u8]) -> Result<Vec<u8>, u64> {
    let mut out = vec![MARK; 1000];
    match records_to(row, wanted, &ebcdic(LIST), &mut out) {
        Ok(count) => {
            let end = count as usize * RECORD;
            assert!(out[end..].iter().all(|&b| b == MARK));
            out.truncate(end);
            Ok(out)
        }
        Err(refusal) => {
            assert!(out.iter().all(|&b| b == MARK));
            Err(refusal.number())
        }
    }
}

/// A batch of these records alone: the control record of the row's state, with the counts and amounts of case type N.
fn batch_of(records: &[u8]) -> Vec<u8> {
    let mut amount = 0;
    for record in records.chunks(RECORD).filter(|r| r[72] == 0xD4) {
        amount += record[64..72]
            .iter()
            .fold(0, |n, &b| 10 * n + u64::from(b - 0xF0));
    }
    let count = records.len() / RECORD;
    let totals = format!("{:09}{count:09}{:011}{amount:011}", 0, 0);
    let control = record(&[(1, "OHCTL"), (6, &totals)]);
    [records, &control].concat()
}

/// The rows that the batch leaves of a master; no detail gets a code.
fn applied(master: &[u8], records: &[u8], year: u64) -> Vec<u8> {
    let batch = batch_of(records);
    let details = records.len() / RECORD;
    let mut rows = master.to_vec();
    let mut verdicts = vec![9; details];
    let mut rejects = vec![0; RECORD * (details + 1)];
    let count = master.len() / ROW;
    let counts = apply(
        &mut rows,
        count,
        &batch,
        &ebcdic(LIST),
        year,
        &mut verdicts,
        &mut rejects,
    )
    .expect("the batch is right");
    assert!(verdicts.iter().all(|&verdict| verdict == 0));
    assert_eq!(counts.accepted as usize, details);
    assert_eq!(counts.rows as usize, count);
    rows
}

/// The records are these, and lead there in every year.
fn leads(row: &[u8], wanted: &[u8], expected: &[Vec<u8>]) {
    let written = records(row, wanted).expect("there are such records");
    assert_eq!(written, expected.concat());
    for year in [1900, 2007, 9999] {
        assert_eq!(applied(row, &written, year), wanted);
    }
}

#[test]
fn each_field_alone() {
    let row = smith();
    leads(&row, &with(&row, 16, "K2"), &[sent("C", 15, "K2")]);
    leads(
        &row,
        &with(&row, 30, "X"),
        &[sent("C", 15, "C1            X")],
    );
    leads(&row, &with(&row, 13, "012"), &[sent("L", 3, "012")]);
    leads(
        &row,
        &with_set(&row, 0xC6),
        &[sent("R", 188, "RET,VEN,FIN,DCK")],
    );
    leads(
        &row,
        &with(&row, 66, "99999999"),
        &[sent("M", 65, "99999999")],
    );
    leads(
        &row,
        &with(&row, 66, "00000001"),
        &[sent("M", 65, "00000001")],
    );
}

#[test]
fn all_four_in_order() {
    let row = with(&smith(), 197, "99");
    let other = with_set(&with(&with(&smith(), 16, "K2"), 13, "000"), 0x1F);
    let all = |amount| {
        [
            sent("C", 15, "K2"),
            sent("L", 3, "000"),
            sent("R", 188, "ADM,RET,VEN,SAL,TAX"),
            sent("M", 65, amount),
        ]
    };
    leads(&row, &with(&other, 66, "00000101"), &all("00000101"));
    // zero deletes, and comes last
    leads(&row, &closed(&other), &all("00000000"));
}

#[test]
fn rows_that_are_equal() {
    leads(&smith(), &smith(), &[]);
    leads(&closed(&smith()), &closed(&smith()), &[]);
    // what can't be had may stay
    let odd = with_set(&with(&with(&smith(), 197, "50"), 13, "008"), 1);
    leads(&odd, &odd, &[]);
}

#[test]
fn deletion() {
    let row = smith();
    leads(&row, &closed(&row), &[sent("M", 65, "00000000")]);
    assert_eq!(records(&closed(&row), &row), Err(29));
    assert_eq!(
        records(&closed(&row), &with(&closed(&row), 13, "012")),
        Err(29)
    );
}

#[test]
fn cents() {
    let row = smith();
    let fifty = with(&row, 197, "50");
    leads(&fifty, &row, &[sent("M", 65, "00000100")]);
    leads(
        &with(&fifty, 66, "00000000"),
        &closed(&row),
        &[sent("M", 65, "00000000")],
    );
    leads(&fifty, &with(&fifty, 13, "012"), &[sent("L", 3, "012")]);
    assert_eq!(records(&row, &fifty), Err(29));
    assert_eq!(records(&fifty, &with(&fifty, 198, "1")), Err(29));
    assert_eq!(records(&fifty, &with(&fifty, 66, "00000200")), Err(29));
}

#[test]
fn local_codes() {
    let row = smith();
    leads(&row, &with(&row, 13, "000"), &[sent("L", 3, "000")]);
    leads(&row, &with(&row, 13, "012"), &[sent("L", 3, "012")]);
    assert_eq!(records(&row, &with(&row, 13, "008")), Err(29));
    let unlisted = with(&row, 13, "008");
    leads(
        &unlisted,
        &with(&unlisted, 16, "K2"),
        &[sent("C", 15, "K2")],
    );
    leads(&unlisted, &row, &[sent("L", 3, "007")]);
}

#[test]
fn case_ids() {
    let row = smith();
    let blank = with(&row, 16, "               ");
    assert_eq!(records(&row, &blank), Err(29));
    leads(&blank, &with(&blank, 13, "012"), &[sent("L", 3, "012")]);
    leads(&blank, &row, &[sent("C", 15, "C1")]);
}

#[test]
fn columns_that_no_record_writes() {
    let row = smith();
    let mut others = vec![(2, "K"), (11, "8"), (12, "A")];
    others.extend((31..=65).chain(74..=78).chain(91..=194).map(|c| (c, "X")));
    others.extend((79..=90).map(|column| (column, "1")));
    for (column, text) in others {
        assert_eq!(
            records(&row, &with(&row, column, text)),
            Err(29),
            "{column}"
        );
    }
}

/// Without ADM, or with all of RET, VEN and SAL.
fn is_closed(set: u8) -> bool {
    set & 1 == 0 || set & 14 == 14
}

#[test]
fn every_set_from_every_set() {
    let row = smith();
    for stored in 0..=255 {
        for set in 0..=255 {
            let (row, wanted) = (with_set(&row, stored), with_set(&row, set));
            if stored == set {
                assert_eq!(records(&row, &wanted), Ok(vec![]));
            } else if is_closed(set) {
                let words: Vec<_> = (0..8).filter(|bit| set >> bit & 1 == 1).collect();
                let words: Vec<_> = words.into_iter().map(|bit| NAMES[bit]).collect();
                let written = records(&row, &wanted).expect("it is a set of words");
                assert_eq!(written, sent("R", 188, &words.join(",")));
                assert_eq!(applied(&row, &written, 2007), wanted);
            } else {
                assert_eq!(records(&row, &wanted), Err(29));
            }
        }
    }
    // ADM alone may stay
    let adm = with_set(&row, 1);
    leads(&adm, &with(&adm, 13, "012"), &[sent("L", 3, "012")]);
}

#[test]
fn between_other_rows() {
    let row = smith();
    let wanted = closed(&with(&row, 16, "K2"));
    let written = records(&row, &wanted).expect("there are such records");
    let others = [with(&row, 1, "OH123456788N"), with(&row, 1, "OK123456789N")];
    let master = [&others[0][..], &row, &others[1]].concat();
    let after = [&others[0][..], &wanted, &others[1]].concat();
    assert_eq!(applied(&master, &written, 2007), after);
}

#[test]
fn refusals_in_order() {
    let (row, bad) = (smith(), vec![SPACE; ROW]);
    let refused = |row: &[u8], wanted: &[u8], list: &str, bytes: usize| {
        let mut out = vec![MARK; bytes];
        let refusal = records_to(row, wanted, &ebcdic(list), &mut out);
        assert!(out.iter().all(|&b| b == MARK));
        refusal.expect_err("it is to be refused").number()
    };
    assert_eq!(refused(&[], &[], "0", 0), 2);
    assert_eq!(refused(&bad, &bad, "012007", 0), 2);
    assert_eq!(refused(&bad, &row, LIST, 0), 4);
    assert_eq!(refused(&row, &bad, LIST, 0), 4);
    assert_eq!(refused(&row[..199], &row, LIST, 980), 4);
    assert_eq!(refused(&row, &row[..199], LIST, 980), 4);
    assert_eq!(refused(&row, &[&row[..], &[SPACE]].concat(), LIST, 980), 4);
    assert_eq!(refused(&row, &with(&row, 196, "D"), LIST, 0), 4);
    assert_eq!(refused(&row, &with(&row, 13, "012"), "", 0), 29);
    assert_eq!(refused(&row, &with(&row, 13, "012"), LIST, 979), 30);
    assert_eq!(refused(&row, &row, LIST, 979), 30);
}

#[test]
fn an_output_of_four_records() {
    let mut out = [MARK; RECORDS];
    assert_eq!(records_to(&smith(), &smith(), &[], &mut out), Ok(0));
    assert!(out.iter().all(|&b| b == MARK));
    let wanted = with(&smith(), 66, "00000007");
    assert_eq!(records_to(&smith(), &wanted, &[], &mut out), Ok(1));
    assert_eq!(out[..RECORD], sent("M", 65, "00000007"));
    assert_eq!(
        records_to(&smith(), &wanted, &[], &mut out[1..]),
        Err(Refusal::ShortRecords)
    );
}
