//! Item 3 of document 02: the names of B records anywhere in the batch, worked by hand.

use super::{add, around, control, live_row, put, record, NONE};
use crate::batch::{apply, RECORD};
use crate::errors::Names;
use crate::machine::judge;
use crate::row::{Row, ROW};
use crate::text::{ebcdic, SPACE};

type Detail = [u8; RECORD];

/// An M record of the live row's key with a name.
fn modify(name: &str) -> Detail {
    record("M", name, "00000100")
}

/// A B record of the live row's key with a last name.
fn rename(name: &str) -> Detail {
    let mut record = record("B", name, "");
    put(&mut record, 50, "JANE");
    record
}

/// A record with other characters from a column on.
fn with(mut record: Detail, place: usize, text: &str) -> Detail {
    put(&mut record, place, text);
    record
}

/// A detail's codes, and columns 240–243 of its reject record (spaces without one).
type Judged = (Vec<u32>, [u8; 4]);

fn passed() -> Judged {
    (NONE, [SPACE; 4])
}

fn wrong(code: u32) -> Judged {
    (vec![code], [SPACE; 4])
}

/// 17 with the stored characters.
fn differs(stored: &[u8; 4]) -> Judged {
    (vec![17], ebcdic(stored))
}

/// Details of OH applied to a master of one row or none, in a batch of a state.
fn applied_as(state: &str, row: Option<Row>, details: &[Detail]) -> (Vec<Judged>, Vec<u8>) {
    let count = |place: usize, byte: u8| {
        let found = details.iter().filter(|record| record[place] == byte);
        found.count() as u64
    };
    let (tanf, other) = (count(73, 0xC1), count(73, 0xD5));
    let mut last = control([tanf, other, 0, 25 * count(72, 0xC1) + 100 * count(72, 0xD4)]);
    put(&mut last, 1, state);
    let batch = [details.concat(), last.to_vec()].concat();
    let mut master = vec![SPACE; 2 * ROW];
    master[..ROW].copy_from_slice(&row.unwrap_or([SPACE; ROW]));
    let mut verdicts = vec![0; details.len()];
    let mut rejects = vec![0; RECORD * (details.len() + 1)];
    let rows = usize::from(row.is_some());
    let done = apply(
        &mut master,
        rows,
        &batch,
        &[],
        2007,
        &mut verdicts,
        &mut rejects,
    );
    assert!(done.is_ok());
    let mut records = rejects.chunks(RECORD);
    let judged = verdicts.iter().map(|&verdict| {
        let codes: Vec<u32> = (0..64).filter(|code| verdict >> code & 1 == 1).collect();
        let mut stored = [SPACE; 4];
        if !codes.is_empty() {
            stored.copy_from_slice(&records.next().unwrap()[239..243]);
        }
        (codes, stored)
    });
    (judged.collect(), master)
}

fn applied(row: Option<Row>, details: &[Detail]) -> Vec<Judged> {
    applied_as("OH", row, details).0
}

#[test]
fn before_and_behind() {
    let details = [
        modify("JONE"),
        modify("SMIT"),
        rename("JONES"),
        modify("JONE"),
        modify("SMIT"),
        modify("BROW"),
    ];
    let expected = [
        passed(),
        passed(),
        passed(),
        passed(),
        differs(b"JONE"),
        differs(b"JONE"),
    ];
    assert_eq!(applied(Some(live_row()), &details), expected);
}

#[test]
fn old_name_that_another_b_carries() {
    let details = [rename("JONES"), modify("SMIT"), rename("SMITHSON")];
    assert_eq!(
        applied(Some(live_row()), &details),
        [passed(), passed(), passed()]
    );
}

#[test]
fn several_names() {
    let details = [
        modify("LI"),
        modify("O-NE"),
        rename("O-NEIL"),
        rename("LI   X"),
        modify("O-NE"),
        modify("LI"),
        modify("LIX"),
    ];
    let judged = applied(Some(live_row()), &details);
    assert_eq!(&judged[..6], vec![passed(); 6]);
    assert_eq!(judged[6], differs(b"LI  "));
}

#[test]
fn b_with_05() {
    // A hyphen alone is a name for M and none for B.
    for name in ["-", "--", "----"] {
        let details = [modify(name), rename(name), modify(name)];
        assert_eq!(
            applied(Some(live_row()), &details),
            [differs(b"SMIT"), wrong(5), differs(b"SMIT")]
        );
    }
    let details = [modify("-A"), rename("-A")];
    assert_eq!(applied(Some(live_row()), &details), [passed(), passed()]);
}

#[test]
fn b_with_06_or_18() {
    for (faulty, code) in [
        (with(rename("JONES"), 50, " "), 6),
        (with(rename("JONES"), 50, "1"), 6),
        (with(rename("JONES"), 228, "X"), 18),
        (with(rename("JONES"), 244, "0"), 18),
    ] {
        let details = [modify("JONE"), faulty, modify("JONE")];
        assert_eq!(
            applied(Some(live_row()), &details),
            [differs(b"SMIT"), wrong(code), differs(b"SMIT")]
        );
        // A second, right B of that name makes up for it.
        let details = [modify("JONE"), faulty, rename("JONES")];
        assert_eq!(
            applied(Some(live_row()), &details),
            [passed(), wrong(code), passed()]
        );
    }
}

#[test]
fn b_with_09_gives_its_name() {
    let details = [rename("JONES"), add("00000025"), modify("JONE")];
    let expected = [wrong(9), passed(), passed()];
    assert_eq!(applied(None, &details), expected);
    // On a deleted row too, and from behind.
    let details = [
        modify("JONE"),
        record("D", "SMIT", ""),
        rename("JONES"),
        modify("JONE"),
    ];
    let expected = [passed(), passed(), wrong(9), wrong(9)];
    assert_eq!(applied(Some(live_row()), &details), expected);
}

#[test]
fn b_of_another_key() {
    for (other, code) in [
        (with(rename("JONES"), 74, "A"), 9),
        (with(rename("JONES"), 6, "123456780"), 9),
        (with(rename("JONES"), 1, "WV"), 1),
        (with(rename("JONES"), 6, "666123456"), 2),
        (with(rename("JONES"), 74, "X"), 4),
    ] {
        let details = [modify("JONE"), other];
        assert_eq!(
            applied(Some(live_row()), &details),
            [differs(b"SMIT"), wrong(code)]
        );
    }
}

#[test]
fn only_b_gives_a_name() {
    let mut other = add("00000025");
    put(&mut other, 30, "JONES");
    let details = [modify("JONE"), other, modify("SMIT"), modify("JONE")];
    let judged = applied(Some(live_row()), &details);
    assert_eq!(judged[0], differs(b"SMIT"));
    assert_eq!(judged[1].0, [52]);
    assert_eq!(judged[2], differs(b"JONE"));
    assert_eq!(judged[3], passed());
}

#[test]
fn where_17_is_not_judged() {
    let names: Names = [ebcdic(b"JONE"), ebcdic(b"O NE")].into();
    let codes = |row: Option<&Row>, record: &Detail| {
        let verdict = judge(row, record, &names, &around());
        assert_eq!(verdict.stored, None);
        (0..64)
            .filter(|&code| verdict.has(code))
            .collect::<Vec<u32>>()
    };
    let row = live_row();
    assert_eq!(codes(Some(&row), &modify("O NE")), [5]);
    assert_eq!(codes(None, &modify("JONE")), [9]);
    assert_eq!(codes(None, &modify("BROW")), [9]);
    assert_eq!(codes(Some(&row), &with(modify("BROW"), 1, "WV")), [1]);
    assert_eq!(codes(Some(&row), &with(modify("BROW"), 73, "X")), [3]);
    assert_eq!(codes(Some(&row), &rename("BROWN")), NONE);
}

#[test]
fn with_17_and_other_errors() {
    let details = [with(modify("BROW"), 228, "X"), rename("JONES")];
    assert_eq!(
        applied(Some(live_row()), &details),
        [(vec![17, 18], ebcdic(b"SMIT")), passed()]
    );
}

#[test]
fn of_the_control_record_s_state() {
    let details = [modify("JONE"), rename("JONES")];
    let (judged, master) = applied_as("WV", Some(live_row()), &details);
    assert_eq!(judged, [wrong(1), wrong(1)]);
    assert_eq!(&master[..ROW], &live_row());
}

#[test]
fn nothing_is_remembered() {
    let (judged, master) = applied_as("OH", Some(live_row()), &[rename("JONES"), rename("BROWN")]);
    assert_eq!(judged, [passed(), passed()]);
    let mut row = [SPACE; ROW];
    row.copy_from_slice(&master[..ROW]);
    assert_eq!(
        applied(Some(row), &[modify("JONE"), modify("BROW")]),
        [differs(b"BROW"), passed()]
    );
}
