//! Item 11 of document 02: the records that lead to a wanted case, worked by hand.

use super::{live_row, put, record};
use crate::batch::{apply, RECORD};
use crate::records_to::{records_to, refusal_29};
use crate::row::{row_sound, Row, ROW};
use crate::text::{ebcdic_byte, write_number, SPACE};

/// Codes 001 and 002.
fn list() -> Vec<u8> {
    b"001002".map(ebcdic_byte).to_vec()
}

/// A row with text from a column on.
fn with(mut row: Row, place: usize, text: &str) -> Row {
    put(&mut row, place, text);
    row
}

fn with_set(mut row: Row, set: u8) -> Row {
    row[194] = set;
    row
}

/// The row with other dollars and cents, deleted exactly when both are zero.
fn owing(row: Row, dollars: &str, cents: &str) -> Row {
    let gone = dollars == "00000000" && cents == "00";
    let row = with(with(row, 66, dollars), 197, cents);
    with(row, 196, if gone { "D" } else { " " })
}

/// The records, once a batch of them has led from the row to the wanted one.
fn records(row: &Row, wanted: &Row) -> Vec<u8> {
    let mut out = vec![7; 981];
    let count = records_to(row, wanted, &list(), &mut out).unwrap() as usize;
    let length = count * RECORD;
    assert!(out[length..].iter().all(|&byte| byte == 7));
    out.truncate(length);
    lead(row, wanted, &out);
    out
}

/// Applies the records to a master that holds the row between two others.
fn lead(row: &Row, wanted: &Row, records: &[u8]) {
    let around = [with(live_row(), 1, "AK"), with(live_row(), 1, "WV")];
    let mut master = [around[0], *row, around[1]].concat();
    let mut control = [SPACE; RECORD];
    put(&mut control, 1, "OHCTL");
    let count = records.len() / RECORD;
    write_number(&mut control[5..45], 0);
    write_number(&mut control[14..23], count as u64);
    let dollars = records.chunks(RECORD).last().and_then(|last| {
        let modify = last[72] == ebcdic_byte(b'M');
        modify.then(|| last[64..72].to_vec())
    });
    control[37..45].copy_from_slice(&dollars.unwrap_or(vec![0xF0; 8]));
    let batch = [records, &control].concat();
    let (mut verdicts, mut rejects) = (vec![9; count], vec![9; RECORD * (count + 1)]);
    let done = apply(
        &mut master,
        3,
        &batch,
        &list(),
        2007,
        &mut verdicts,
        &mut rejects,
    );
    assert_eq!(done.map(|counts| counts.accepted), Ok(count as u64));
    assert!(verdicts.iter().all(|&verdict| verdict == 0));
    assert_eq!(master, [around[0], *wanted, around[1]].concat());
}

/// The record of the example's key, blank but for the text.
fn sent(kind: &str, place: usize, text: &str) -> [u8; RECORD] {
    let mut sent = record(kind, "SMITH", "");
    put(&mut sent, place, text);
    sent
}

#[test]
fn each_field_alone() {
    let row = live_row();
    assert_eq!(records(&row, &row), []);
    let id = with(row, 16, "CASE-7");
    assert_eq!(records(&row, &id), sent("C", 15, "CASE-7"));
    let code = with(row, 13, "002");
    assert_eq!(records(&row, &code), sent("L", 3, "002"));
    assert_eq!(records(&code, &row), sent("L", 3, "000"));
    let set = with_set(row, 0b0110_0010);
    assert_eq!(records(&row, &set), sent("R", 188, "RET,PAS,FIN"));
    assert_eq!(records(&set, &row), sent("R", 188, ""));
    let owed = owing(row, "00000100", "00");
    assert_eq!(records(&row, &owed), sent("M", 65, "00000100"));
}

#[test]
fn all_four_in_order() {
    let row = owing(live_row(), "00000025", "50");
    let wanted = with(with(row, 16, "ID 0000000000 5"), 13, "001");
    let wanted = owing(with_set(wanted, 0xFF), "99999999", "00");
    let expected = [
        sent("C", 15, "ID 0000000000 5"),
        sent("L", 3, "001"),
        sent("R", 188, "ADM,RET,VEN,SAL,TAX,PAS,FIN,DCK"),
        sent("M", 65, "99999999"),
    ];
    assert_eq!(records(&row, &wanted), expected.concat());
}

#[test]
fn the_stored_name_whole() {
    let row = with(live_row(), 31, "SMI ABCDEFGHIJKLMNO1");
    let wanted = with(row, 16, "X");
    let mut expected = sent("C", 15, "X");
    put(&mut expected, 30, "SMI ABCDEFGHIJKLMNO1");
    assert_eq!(records(&row, &wanted), expected);
}

#[test]
fn amounts() {
    let row = owing(live_row(), "00000025", "50");
    // The cents alone; then to nothing.
    let whole = owing(row, "00000025", "00");
    assert_eq!(records(&row, &whole), sent("M", 65, "00000025"));
    let gone = owing(row, "00000000", "00");
    assert_eq!(records(&row, &gone), sent("M", 65, "00000000"));
    // 50 cents are a live row's, and go to nothing for the cents alone.
    let cents = owing(row, "00000000", "50");
    assert_eq!(records(&cents, &gone), sent("M", 65, "00000000"));
    // The cents stay where nothing else of the balance is asked for.
    assert_eq!(records(&row, &with(row, 16, "X")), sent("C", 15, "X"));
    // A deletion comes last.
    let both = with(gone, 16, "X");
    let expected = [sent("C", 15, "X"), sent("M", 65, "00000000")];
    assert_eq!(records(&row, &both), expected.concat());
}

#[test]
fn codes() {
    // An unlisted code is kept, and left for 000 and a listed one.
    let row = with(live_row(), 13, "777");
    assert_eq!(records(&row, &with(row, 16, "X")), sent("C", 15, "X"));
    assert_eq!(records(&row, &with(row, 13, "000")), sent("L", 3, "000"));
    assert_eq!(records(&row, &with(row, 13, "001")), sent("L", 3, "001"));
    assert!(refusal_29(&row, &with(row, 13, "003"), &list()));
    assert!(refusal_29(&live_row(), &row, &list()));
    assert!(!refusal_29(&live_row(), &with(row, 13, "000"), &[]));
}

/// The refusal of two rows, nothing written.
fn refused(row: &[u8], wanted: &[u8], list: &[u8], length: usize) -> u64 {
    let mut out = vec![7; length];
    let answer = records_to(row, wanted, list, &mut out).unwrap_err();
    assert!(out.iter().all(|&byte| byte == 7));
    answer
}

#[test]
fn each_cause_alone() {
    let row = owing(with(live_row(), 16, "OLD"), "00000025", "50");
    let gone = owing(row, "00000000", "00");
    let never = |row: &Row, wanted: &Row| {
        assert!(row_sound(row) && row_sound(wanted));
        assert_eq!(refused(row, wanted, &list(), 980), 29);
    };
    // A deleted row, whatever is asked of it.
    never(&gone, &with(gone, 16, "X"));
    never(&gone, &owing(gone, "00000025", "00"));
    assert_eq!(records_to(&gone, &gone, &[], &mut [0; 980]), Ok(0));
    // Another byte: the key, names, transfer, payment, address, date.
    for (place, text) in [
        (1, "WV"),
        (11, "8"),
        (12, "A"),
        (31, "SMYT"),
        (35, "X"),
        (50, "X"),
        (51, "K"),
        (65, "X"),
        (74, "X"),
        (78, "X"),
        (79, "2007"),
        (90, "1"),
        (91, "X"),
        (186, "X"),
        (187, "X"),
        (194, "X"),
    ] {
        never(&row, &with(row, place, text));
    }
    // A blank case ID, an unlisted code, ADM without the other three, cents.
    never(&row, &with(row, 16, "   "));
    never(&row, &with(row, 13, "003"));
    for set in [0b0001, 0b0011, 0b0111, 0b1101, 0b1011, 0b1111_0001] {
        never(&row, &with_set(row, set));
    }
    for cents in ["01", "10", "49", "51", "99"] {
        never(&row, &owing(row, "00000025", cents));
    }
    never(&row, &owing(row, "00000026", "50"));
    never(&row, &owing(row, "00000000", "50"));
    // Kept, each of them is no cause.
    let kept = with_set(with(row, 13, "003"), 0b0001);
    let kept = with(kept, 16, "               ");
    let wanted = with(kept, 13, "001");
    assert_eq!(records(&kept, &wanted), sent("L", 3, "001"));
}

/// The computable test beside the search.
fn by_test(row: &Row, wanted: &Row, list: &[u8]) -> bool {
    let differ = |first: usize, last: usize| row[first - 1..last] != wanted[first - 1..last];
    let blank = wanted[15..30].iter().all(|&byte| byte == SPACE);
    let code = &wanted[12..15];
    let listed = code == [0xF0; 3] || list.chunks(3).any(|one| one == code);
    let set = wanted[194];
    let others = [(1, 12), (31, 65), (74, 194), (199, 200)];
    row != wanted
        && (row[195] != SPACE
            || others.iter().any(|&(first, last)| differ(first, last))
            || differ(16, 30) && blank
            || differ(13, 15) && !listed
            || differ(195, 195) && set & 1 == 1 && set & 0b1110 != 0b1110
            || (differ(66, 73) || differ(197, 198)) && wanted[196..198] != [0xF0; 2])
}

#[test]
fn every_set_against_every_other() {
    let row = live_row();
    for from in 0..=255 {
        for to in 0..=255 {
            let (one, two) = (with_set(row, from), with_set(row, to));
            let closed = to & 1 == 0 || to & 0b1110 == 0b1110;
            let never = from != to && !closed;
            assert_eq!(by_test(&one, &two, &[]), never);
            // The search is the same for each set at the start: a part of them is enough.
            if from % 17 == 0 || from == to {
                assert_eq!(refusal_29(&one, &two, &[]), never, "{from} {to}");
            }
        }
    }
}

#[test]
fn the_search_and_the_test() {
    let base = with(live_row(), 16, "OLD");
    let mut rows = Vec::new();
    for code in ["000", "001", "777"] {
        for id in ["OLD", "NEW", "   "] {
            for (dollars, cents) in [
                ("00000025", "00"),
                ("00000025", "50"),
                ("00000000", "50"),
                ("00000000", "00"),
            ] {
                for set in [0b0000, 0b0001, 0b1111] {
                    let row = with(with(base, 13, code), 16, id);
                    rows.push(with_set(owing(row, dollars, cents), set));
                }
            }
        }
    }
    rows.push(with(base, 91, "X"));
    for row in &rows {
        for wanted in &rows {
            let never = by_test(row, wanted, &list());
            assert_eq!(refusal_29(row, wanted, &list()), never);
            if !never {
                records(row, wanted);
            }
        }
    }
}

#[test]
fn in_order() {
    let row = live_row();
    let other = with(row, 1, "WV");
    let unsound = with(row, 66, "0000002 ");
    assert_eq!(refused(&row, &row, &[0xF1], 0), 2);
    assert_eq!(refused(&unsound, &row, &[0xF1], 0), 2);
    assert_eq!(refused(&unsound, &row, &[], 0), 4);
    assert_eq!(refused(&row, &unsound, &[], 0), 4);
    assert_eq!(refused(&other, &unsound, &[], 0), 4);
    assert_eq!(refused(&row, &other, &[], 0), 29);
    assert_eq!(refused(&row, &row, &[], 979), 30);
    assert_eq!(refused(&row, &with(row, 16, "X"), &[], 245), 30);
    assert_eq!(records_to(&row, &row, &[], &mut [0; 980]), Ok(0));
    // An argument that isn't of 200 bytes.
    let long = [&row[..], &[SPACE]].concat();
    for wrong in [&row[..ROW - 1], &long, &[]] {
        assert_eq!(refused(wrong, &row, &[], 980), 4);
        assert_eq!(refused(&row, wrong, &[], 980), 4);
        assert_eq!(refused(wrong, wrong, &[], 980), 4);
    }
}
