//! edit and records: the records that lead a case to wanted values, worked out by hand, and what no record leads to.

mod common;

use std::fs;
use std::path::Path;

use common::*;

const KEY: &str = "OH123456789N";

/// A row of 25.50, one of 100.50, and the list 001, 007.
fn folder(name: &str) -> Folder {
    let folder = Folder::with_example(name);
    folder.write("master.bin", &two_rows("50"));
    folder.write("locals.bin", &ebcdic("001007"));
    folder
}

const EDIT: [&str; 7] = [
    "edit",
    "master.bin",
    KEY,
    "--locals",
    "locals.bin",
    "--out",
    "change.bin",
];

const ALL: [&str; 8] = [
    "--case-id",
    "K-2",
    "--local-code",
    "007",
    "--exclusions",
    "PAS RET",
    "--amount",
    "40",
];

fn expected(name: &str) -> String {
    let folder = Path::new(env!("CARGO_MANIFEST_DIR")).join("tests/expected");
    let text = fs::read_to_string(folder.join(name)).expect("it is there");
    text.replace("VERSION", fantanolive::VERSION)
}

/// A record of the first row's key and name with a type and a text from a column on.
fn sent(kind: &str, column: usize, text: &str) -> Vec<u8> {
    record(&[
        (1, "OH"),
        (6, "123456789"),
        (30, "SMITH"),
        (73, kind),
        (74, "N"),
        (column, text),
    ])
}

fn all_records() -> Vec<u8> {
    [
        sent("C", 15, "K-2"),
        sent("L", 3, "007"),
        sent("R", 188, "RET,PAS"),
        sent("M", 65, "00000040"),
        control(0, 4, 0, 40),
    ]
    .concat()
}

/// A row with a text from a column on.
fn changed(row: &[u8], column: usize, text: &str) -> Vec<u8> {
    let mut row = row.to_vec();
    row[column - 1..column - 1 + text.len()].copy_from_slice(&ebcdic(text));
    row
}

#[test]
fn all_four_values() {
    let folder = folder("edits-all");
    let ran = folder.run(&with(&EDIT, &ALL));
    assert_eq!((ran.out, ran.err.as_str()), (expected("edit.txt"), ""));
    assert_eq!(ran.status, 0);
    assert_eq!(folder.read("change.bin"), all_records());
    assert_eq!(folder.read("master.bin"), two_rows("50"));
    assert!(!folder.has("master.bin.log"));
    let json = folder.run(&with(&with(&EDIT, &ALL), &["--json", "--force"]));
    assert_eq!(json.out, expected("edit.json"));
    folder.write("locals.bin", b"001007");
    let text = with(&with(&EDIT, &ALL), &["--ascii", "--force"]);
    assert_eq!(folder.run(&text).status, 0);
    assert_eq!(folder.read("change.bin"), ascii(&all_records()));
}

#[test]
fn the_batch_leads_there() {
    let folder = folder("edits-applied");
    assert_eq!(folder.run(&with(&EDIT, &ALL)).status, 0);
    let mut apply = APPLY;
    apply[2] = "change.bin";
    let ran = folder.run(&apply);
    assert_eq!(ran.status, 0, "{ran:?}");
    let first = row(KEY, "00000040", "00");
    let mut first = changed(&changed(&first, 13, "007"), 16, "K-2");
    first[194] = 0b0010_0010;
    let rows = [first, row("OH987654321A", "00000100", "50")].concat();
    assert_eq!(folder.read("master.bin"), rows);
}

/// The details of a batch that edit writes, without the control record.
fn details(folder: &Folder, more: &[&str]) -> Vec<u8> {
    let ran = folder.run(&with(&with(&EDIT, more), &["--force"]));
    assert_eq!(ran.status, 0, "{more:?}: {ran:?}");
    let mut batch = folder.read("change.bin");
    batch.truncate(batch.len() - 245);
    batch
}

#[test]
fn each_value_alone() {
    let folder = folder("edits-alone");
    let made = |more: &[&str]| details(&folder, more);
    let longest = "ABCDEFGHIJK/-&9";
    assert_eq!(made(&["--case-id", longest]), sent("C", 15, longest));
    assert_eq!(made(&["--local-code", "001"]), sent("L", 3, "001"));
    let adm = sent("R", 188, "ADM,RET,VEN,SAL");
    assert_eq!(made(&["--exclusions", "ADM"]), adm);
    assert_eq!(made(&["--exclusions", "SAL,VEN, RET ADM"]), adm);
    assert_eq!(made(&["--amount", "99999999"]), sent("M", 65, "99999999"));
    assert_eq!(made(&["--amount", "0"]), sent("M", 65, "00000000"));
    // 25 dollars are there, but with 50 cents
    assert_eq!(made(&["--amount", "25"]), sent("M", 65, "00000025"));
    // what is so already needs no record
    assert_eq!(made(&["--local-code", "000", "--exclusions", ""]), []);
    let control_alone = folder.read("change.bin");
    assert_eq!(control_alone, control(0, 0, 0, 0));
}

#[test]
fn keys_and_lists() {
    let folder = folder("edits-keys");
    let mut edit = EDIT;
    edit[2] = "-";
    let amount = with(&edit, &["--amount", "7"]);
    let ran = folder.run_with_input(&amount, "OH987654321A\n");
    assert_eq!(ran.status, 0, "{ran:?}");
    let m = record(&[
        (1, "OH"),
        (6, "987654321"),
        (30, "SMITH"),
        (65, "00000007"),
        (73, "MA"),
    ]);
    assert_eq!(folder.read("change.bin"), [m, control(1, 0, 7, 0)].concat());
    let ran = folder.run_with_input(&amount, "OH987654321A\nOH123456789N\n");
    assert_eq!(ran.status, 3);
    let again = with(&amount, &["--force"]);
    let ran = folder.run_with_input(&again, "OH987654321A\nOH123456789N\n");
    assert!(ran.err.contains("standard input has several keys"));
    let ran = folder.run_with_input(&again, "OH987654321N\n");
    assert_eq!(ran.status, 6, "{ran:?}");
    let ran = folder.run_with_input(&again, "OH98765432A\n");
    assert_eq!(ran.status, 2, "{ran:?}");
    // without a list no code but 000 is one
    let plain = ["edit", "master.bin", KEY, "--out", "other.bin"];
    let ran = folder.run(&with(&plain, &["--local-code", "007"]));
    assert_eq!(ran.status, 2);
    assert!(ran.err.contains("refused 29: "), "{}", ran.err);
    let missing =
        "  --local-code: the list of local codes is missing: give it with --locals FILE\n";
    assert!(ran.err.contains(missing), "{}", ran.err);
    let ran = folder.run(&with(&EDIT, &["--local-code", "002", "--force"]));
    assert!(
        ran.status == 2 && !ran.err.contains("is missing"),
        "{ran:?}"
    );
    assert_eq!(folder.run(&with(&plain, &["--amount", "1"])).status, 0);
}

#[test]
fn values_that_no_record_leads_to() {
    let folder = folder("edits-refused");
    let more = ["--case-id", "", "--local-code", "002", "--amount", "1"];
    folder.write("master.bin", &{
        let rows = two_rows("50");
        [changed(&rows[..200], 16, "K1"), rows[200..].to_vec()].concat()
    });
    let before = folder.names();
    let ran = folder.run(&with(&EDIT, &more));
    assert_eq!(
        (ran.status, ran.out.as_str(), ran.err),
        (2, "", expected("edit-refused.txt"))
    );
    assert_eq!(folder.names(), before);
    folder.write("master.bin", &two_rows_posted());
    let ran = folder.run(&with(&EDIT, &["--amount", "1"]));
    assert_eq!(ran.status, 2);
    assert!(ran
        .err
        .contains("  the row's Status (196) is D: it is deleted\n"));
    let ran = folder.run(&with(&EDIT, &["--local-code", "AB1"]));
    assert_eq!(ran.status, 2);
    assert!(ran.err.contains("refused 4: "), "{}", ran.err);
    let note = "  with Local Code (13-15) as wanted the row is not sound\n";
    assert!(ran.err.contains(note), "{}", ran.err);
    folder.write("locals.bin", &ebcdic("007001"));
    let ran = folder.run(&with(&EDIT, &["--amount", "1"]));
    assert!(ran.err.contains("refused 2: ") && ran.err.contains("locals.bin: code 2 of 2"));
}

/// Command lines that are not carried out: what is behind the usual one, the status and a part of the message.
const WRONG: [(&[&str], i32, &str); 13] = [
    (&[], 3, "nothing is wanted: give one of --case-id"),
    (
        &["--case-id", "1234567890123456"],
        3,
        "at most 15 characters",
    ),
    (
        &["--case-id", "Ok2"],
        3,
        "--case-id: character 2 of 'Ok2' is 'k', a lower case letter: use upper case",
    ),
    (
        &["--case-id", "1234\u{DC}56789"],
        3,
        "--case-id: character 5 of '1234\u{DC}56789' is '\u{DC}': use A to Z, digits",
    ),
    (&["--local-code", "7"], 3, "--local-code wants three digits"),
    (
        &["--local-code", "0007"],
        3,
        "--local-code wants three digits",
    ),
    (
        &["--amount", "100000000"],
        3,
        "--amount is at most 99999999",
    ),
    (
        &["--amount", "24.50"],
        3,
        "--amount wants whole dollars, digits only, not '24.50'",
    ),
    (
        &["--amount", "-1"],
        3,
        "--amount wants whole dollars, digits only, not '-1'",
    ),
    (
        &["--exclusions", "RET,XYZ"],
        3,
        "--exclusions: 'XYZ' is none of the words; exclusion word unknown; use ADM",
    ),
    (
        &["--exclusions", "pas RET"],
        3,
        "--exclusions: 'pas' is to be in upper case, PAS; ",
    ),
    (
        &["--exclusions", "RET;PAS"],
        3,
        "--exclusions: 'RET;PAS' is none of the words; ",
    ),
    (
        &["--exclusions", "ADM,RET,VEN,SAL,TAX,PAS,FIN,DCK,ADM,RET,V"],
        3,
        "at most 40",
    ),
];

#[test]
fn command_lines() {
    let folder = folder("edits-arguments");
    let before = folder.names();
    for (more, status, message) in WRONG {
        let ran = folder.run(&with(&EDIT, more));
        assert_eq!(ran.status, status, "{more:?}: {ran:?}");
        assert!(ran.err.contains(message), "{more:?}: {}", ran.err);
    }
    assert_eq!(folder.names(), before);
}

#[test]
fn ssns_are_masked() {
    let folder = folder("edits-masks");
    let more = ["--case-id", "123456789"];
    for form in [&[][..], &["--json"]] {
        let ran = folder.run(&with(&with(&EDIT, &more), &with(form, &["--force"])));
        assert_eq!(ran.status, 0);
        assert!(ran.out.contains("*****6789") && !ran.out.contains("12345"));
    }
    let full = folder.run(&with(&with(&EDIT, &more), &["--force", "--full"]));
    assert!(full.out.contains("'123456789'"), "{}", full.out);
}

const RECORDS: [&str; 7] = [
    "records",
    "row.bin",
    "wanted.bin",
    "--locals",
    "locals.bin",
    "--out",
    "out.bin",
];

/// The wanted row: another code, and deleted.
fn wanted() -> Vec<u8> {
    let row = changed(&paper_row(), 13, "007");
    changed(&changed(&row, 66, "00000000"), 196, "D")
}

fn with_rows(name: &str) -> Folder {
    let folder = folder(name);
    folder.write("row.bin", &paper_row());
    folder.write("wanted.bin", &wanted());
    folder
}

#[test]
fn records_of_two_rows() {
    let folder = with_rows("edits-records");
    let ran = folder.run(&RECORDS);
    assert_eq!((ran.out, ran.err.as_str()), (expected("records.txt"), ""));
    assert_eq!(ran.status, 0);
    let records = [sent("L", 3, "007"), sent("M", 65, "00000000")].concat();
    assert_eq!(folder.read("out.bin"), records);
    folder.write("locals.bin", b"001007");
    let text = with(&RECORDS, &["--ascii", "--force"]);
    assert_eq!(folder.run(&text).status, 0);
    assert_eq!(folder.read("out.bin"), ascii(&records));
    folder.write("wanted.bin", &paper_row());
    let ran = folder.run(&text);
    assert!(ran.out.contains("  records  0\n"), "{}", ran.out);
    assert_eq!((ran.status, folder.read("out.bin")), (0, vec![]));
}

#[test]
fn rows_that_are_refused() {
    let folder = with_rows("edits-rows");
    let (row, two) = (paper_row(), two_rows("00"));
    let old = changed(&row, 197, "    ");
    let unsound = changed(&row, 13, "XYZ");
    for (bytes, note) in [
        (
            &row[..199],
            "199 bytes: 0 rows of 200 bytes and 199 bytes over",
        ),
        (&two[..], "400 bytes: beyond the 1 row of 200 bytes"),
        (&[], "the file is empty"),
        (&old[..], "the rows are from before the cents"),
        (&unsound[..], "row 1 of 1 is the first that is not sound"),
    ] {
        for name in ["row.bin", "wanted.bin"] {
            folder.write("row.bin", &row);
            folder.write("wanted.bin", &wanted());
            folder.write(name, bytes);
            let ran = folder.run(&RECORDS);
            let told: Vec<&str> = ran.err.split_whitespace().collect();
            let told = told.join(" ");
            assert_eq!(ran.status, 2, "{told}");
            assert!(told.contains("refused 4: "), "{told}");
            assert!(told.contains(&format!("{name}: {note}")), "{told}");
        }
    }
}

#[test]
fn rows_to_which_no_record_leads() {
    let folder = with_rows("edits-no-record");
    let row = paper_row();
    for (column, text, field) in [
        (31, "JONES", "Obligor Last Name (31-50)"),
        (12, "A", "Case Type Indicator (12)"),
        (197, "01", "Cents (197-198)"),
        (13, "008", "Local Code (13-15)"),
        (187, "20071231", "Date Issued (187-194)"),
    ] {
        folder.write("wanted.bin", &changed(&row, column, text));
        let ran = folder.run(&RECORDS);
        assert_eq!(ran.status, 2);
        assert!(ran.err.contains("refused 29: "), "{}", ran.err);
        let note = format!("  no record leads to {field} as wanted\n  no file");
        assert!(ran.err.contains(&note), "{}", ran.err);
    }
}

#[test]
fn bytes_without_ascii() {
    let folder = with_rows("edits-ascii");
    folder.write("locals.bin", b"");
    let mut wanted = paper_row();
    wanted[15] = 0x01;
    folder.write("wanted.bin", &wanted);
    let ran = folder.run(&with(&RECORDS, &["--ascii"]));
    assert_eq!(ran.status, 2);
    let note = "byte 14 (record 1, column 15) is hexadecimal 01";
    assert!(ran.err.contains(note), "{}", ran.err);
    assert!(!folder.has("out.bin"));
    assert_eq!(folder.run(&RECORDS).status, 0);
    assert_eq!(folder.read("out.bin")[14], 0x01);
}
