//! Item 4 of document 02: the contact file, worked by hand.

use sparse::Mapping;

use crate::code_page::to_ebcdic;
use crate::contacts::{codes, is_faulty, update, Contact, CONTACT, FAULTS};
use crate::text::SPACE;

fn text(ordinary: &str) -> Vec<u8> {
    let mut bytes = vec![0; ordinary.len()];
    to_ebcdic(ordinary.as_bytes(), &mut bytes).unwrap();
    bytes
}

/// A record with a field written over; the field has a width of its own.
fn with(mut record: Contact, column: usize, ordinary: &str) -> Contact {
    let bytes = text(ordinary);
    record[column - 1..column - 1 + bytes.len()].copy_from_slice(&bytes);
    record
}

/// A good record of a state and code with a mark in line 4.
fn contact(key: &str, mark: &str) -> Contact {
    let mut record = with([SPACE; CONTACT], 1, key);
    record = with(record, 6, "(301) 555-1212");
    record = with(record, 42, "BUREAU OF CHILD SUPPORT ENFORCEMENT");
    record = with(record, 77, "1 MAIN STREET");
    with(record, 182, mark)
}

fn good() -> Contact {
    contact("OH001", "COLUMBUS, OH 43004")
}

/// The faults of a record.
fn faults(record: Contact) -> Vec<&'static str> {
    let found = FAULTS.iter().filter(|(_, holds)| holds(&record));
    found.map(|&(name, _)| name).collect()
}

/// Fields of one place, right ones and wrong ones.
fn fields(column: usize, right: &[&str], wrong: &[&str], fault: &str) {
    for field in right {
        assert!(!is_faulty(&with(good(), column, field)), "{field}");
    }
    for field in wrong {
        assert_eq!(faults(with(good(), column, field)), [fault], "{field}");
    }
}

#[test]
fn keys() {
    fields(1, &["AK", "WY"], &["ZZ", "  ", "O "], "state");
    fields(
        3,
        &["000", "001", "999"],
        &["   ", "1  ", "01A", " 01"],
        "code",
    );
}

#[test]
fn telephones() {
    let right = ["(301) 555-1212", "(000) 000-0000"];
    let wrong = [
        "(301)555-1212 ",
        " (301) 555-121",
        "301 555-1212  ",
        "(301) 555 1212",
        "(301)-555-1212",
        "(30A) 555-1212",
        "(301) 555-121 ",
        ")301( 555-1212",
        "(301) 5551-212",
    ];
    fields(6, &right, &wrong, "telephone 1");
    fields(6, &[], &["              "], "telephone 1");
    fields(24, &right, &wrong, "telephone 2");
    fields(24, &["              "], &[], "telephone 2");
}

#[test]
fn extensions() {
    let right = ["    ", "1   ", "12  ", "123 ", "1234", "0000"];
    let wrong = [
        " 1  ", "   1", "1 2 ", "12 4", "12A ", "A   ", "1-  ", "-   ",
    ];
    fields(20, &right, &wrong, "extension 1");
    // An extension without telephone 2 is allowed.
    fields(38, &right, &wrong, "extension 2");
}

#[test]
fn agency_names() {
    let blank = " ".repeat(35);
    let record = with(good(), 42, &blank);
    let fault = "no CHILD or FAMILY SUPPORT";
    assert_eq!(faults(record), [fault]);
    for name in [
        "CHILD SUPPORT",
        "FAMILY SUPPORT",
        "XCHILD SUPPORTX",
        "CHILD CHILD SUPPORT",
        "STEPFAMILY SUPPORTS",
    ] {
        assert!(!is_faulty(&with(record, 42, name)), "{name}");
    }
    assert!(!is_faulty(&with(record, 64, "CHILD SUPPORT")));
    assert!(!is_faulty(&with(record, 63, "FAMILY SUPPORT")));
    for name in [
        "CHILD  SUPPORT",
        "CHILDSUPPORT",
        "CHILD-SUPPORT",
        "CHILD SUPPOR T",
        "FAMIL SUPPORT",
        "SUPPORT CHILD",
    ] {
        assert_eq!(faults(with(record, 42, name)), [fault], "{name}");
    }
    // Over the end of the field.
    assert_eq!(faults(with(record, 65, "CHILD SUPPORT")), [fault]);
    let mut small = with(record, 42, "CHILD SUPPORT");
    small[46] = 0x84;
    assert_eq!(faults(small), [fault]);
}

#[test]
fn agencies() {
    for (first, last) in [(77, 111), (112, 146), (147, 181), (182, 216)] {
        for line in [
            "IRS",
            "FMS",
            "IRS1",
            "(FMS)",
            "OLD IRS OFFICE",
            "A-IRS-B",
            "1FMS",
        ] {
            let record = with(good(), first, &" ".repeat(35));
            assert_eq!(faults(with(record, first, line)), ["IRS or FMS"], "{line}");
        }
        for line in [
            "FIRST", "IRSA", "XIRS", "I RS", "IR S", "FMSS", "RS", "IRSFMS",
        ] {
            let record = with(with(good(), first, &" ".repeat(35)), 77, "X");
            assert!(!is_faulty(&with(record, first + 2, line)), "{line}");
        }
        assert_eq!(faults(with(good(), last - 2, "IRS")), ["IRS or FMS"]);
    }
    fields(
        42,
        &[],
        &["IRS CHILD SUPPORT                  "],
        "IRS or FMS",
    );
    // Each field is read by itself.
    let name = "CHILD SUPPORT                     I";
    assert!(!is_faulty(&with(good(), 42, &format!("{name}RS STREET"))));
    let name = "CHILD SUPPORT                     X";
    let record = with(good(), 42, &format!("{name}IRS STREET"));
    assert_eq!(faults(record), ["IRS or FMS"]);
    // A small letter ends a run.
    let mut small = with(good(), 182, "AIRS                              ");
    small[181] = 0x81;
    assert_eq!(faults(small), ["IRS or FMS"]);
}

#[test]
fn lines_and_filler() {
    let blank = " ".repeat(35);
    let none = with(good(), 77, &blank);
    assert_eq!(faults(none), ["lines 1 to 3 blank"]);
    for column in [77, 111, 112, 146, 147, 181] {
        assert!(!is_faulty(&with(none, column, "X")));
    }
    assert_eq!(faults(with(good(), 182, &blank)), ["line 4 blank"]);
    fields(182, &[], &[&blank], "line 4 blank");
    for column in 217..=220 {
        assert_eq!(faults(with(good(), column, "X")), ["filler"]);
    }
}

/// A table of records with a mark behind them, a list with marks, and what an update leaves.
fn updated(
    table: &[Contact],
    space: usize,
    file: &[Contact],
    list: usize,
) -> (Result<[u64; 2], u64>, Vec<u8>, Vec<u32>) {
    let mut bytes = table.concat();
    bytes.resize(space * CONTACT, 7);
    let mut numbers = vec![9; list];
    let result = update(&mut bytes, table.len(), &file.concat(), &mut numbers);
    (result, bytes, numbers)
}

/// Records, then marks up to a number of records.
fn marked(table: &[Contact], space: usize) -> Vec<u8> {
    let mut bytes = table.concat();
    bytes.resize(space * CONTACT, 7);
    bytes
}

#[test]
fn records_in_file_order() {
    let table = [contact("OH000", "STATE"), contact("OH005", "OLD")];
    let file = [
        contact("WV001", "LATE"),
        contact("OH005", "NEW"),
        with(contact("OH007", "BAD"), 217, "X"),
        contact("AK999", "FIRST"),
        contact("AK999", "SECOND"),
        with(contact("AK999", "THIRD"), 6, " "),
    ];
    let expected = [
        contact("AK999", "SECOND"),
        contact("OH000", "STATE"),
        contact("OH005", "NEW"),
        contact("WV001", "LATE"),
    ];
    // Five records have a key that the table lacks, the faulty and the repeated ones counted.
    let (result, bytes, list) = updated(&table, 7, &file, 8);
    assert_eq!(result, Ok([4, 2]));
    assert_eq!(bytes, marked(&expected, 7));
    assert_eq!(list, [3, 6, 9, 9, 9, 9, 9, 9]);
    let (result, bytes, list) = updated(&table, 6, &file, 8);
    assert_eq!((result, bytes), (Err(19), marked(&table, 6)));
    assert_eq!(list, [9; 8]);
    assert_eq!(updated(&table, 7, &file, 6).0, Ok([4, 2]));
    assert_eq!(updated(&table, 7, &file, 5).0, Err(19));
}

#[test]
fn a_full_table_and_known_keys() {
    let table = [contact("OH000", "STATE"), contact("OH005", "OLD")];
    let file = [contact("OH005", "NEW"), with(table[0], 220, "X")];
    let expected = [table[0], file[0]].concat();
    assert_eq!(
        updated(&table, 2, &file, 2),
        (Ok([2, 1]), expected, vec![2, 9])
    );
    assert_eq!(
        updated(&table, 2, &[], 0),
        (Ok([2, 0]), table.concat(), vec![])
    );
    assert_eq!(updated(&[], 0, &[], 0), (Ok([0, 0]), vec![], vec![]));
}

#[test]
fn refusal_18() {
    let table = [contact("OH000", "A"), contact("OH005", "B")];
    let run = |table: &[u8], count: usize, file: &[u8]| {
        let mut after = table.to_vec();
        let result = update(&mut after, count, file, &mut [0; 4]);
        assert_eq!(after, table);
        assert_eq!(
            codes(table, count, &text("OH"), &mut [0; 9]),
            result.map(|_| 0)
        );
        result
    };
    let bytes = table.concat();
    for count in [3, usize::MAX, usize::MAX / 220 + 1] {
        assert_eq!(run(&bytes, count, &[]), Err(18));
    }
    assert_eq!(run(&bytes[..439], 1, &[]), Err(18));
    assert_eq!(run(&[&table[1][..], &table[0]].concat(), 2, &[]), Err(18));
    assert_eq!(run(&[&table[1][..], &table[1]].concat(), 2, &[]), Err(18));
    let spoilt = with(table[1], 217, "X");
    assert_eq!(run(&[&table[0][..], &spoilt].concat(), 2, &[]), Err(18));
    // Behind the count nothing is looked at.
    assert!(update(&mut [table[0], spoilt].concat(), 1, &[], &mut []).is_ok());
    // The file's length, before 19.
    let mut after = bytes.clone();
    assert_eq!(update(&mut after, 2, &bytes[..219], &mut []), Err(18));
    let file = Mapping::zeros(220 * 16_777_216);
    assert_eq!(update(&mut after, 2, &file, &mut []), Err(18));
    assert_eq!(update(&mut after, 2, &file[220..], &mut []), Err(19));
}

#[test]
fn every_record_faulty() {
    let mut list = vec![0; 65_537];
    let mut table = vec![7; 220 * 65_537];
    let file = vec![0; 220 * 65_537];
    assert_eq!(update(&mut table, 0, &file, &mut list), Ok([0, 65_537]));
    assert_eq!((list[0], list[65_536]), (1, 65_537));
    assert_eq!(update(&mut table[220..], 0, &file, &mut list), Err(19));
}

#[test]
fn codes_of_a_state() {
    let table = [
        contact("AK001", "A"),
        contact("OH000", "B"),
        contact("OH003", "C"),
        contact("OH999", "D"),
        contact("WV000", "E"),
    ]
    .concat();
    let run = |state: &str, room: usize| {
        let mut out = vec![5; room];
        (codes(&table, 5, &text(state), &mut out), out)
    };
    assert_eq!(run("OH", 7), (Ok(2), [text("003999"), vec![5]].concat()));
    assert_eq!(run("OH", 6), (Ok(2), text("003999")));
    assert_eq!(run("OH", 5), (Err(19), vec![5; 5]));
    assert_eq!(run("WV", 0), (Ok(0), vec![]));
    assert_eq!(run("NY", 1), (Ok(0), vec![5]));
    for state in ["ZZ", "O", "OHI", ""] {
        assert_eq!(run(state, 0).0, Err(12));
    }
    assert_eq!(codes(&table, 6, &text("ZZ"), &mut []), Err(18));
}
