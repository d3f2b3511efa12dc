//! SSNs: nothing that is printed has more than the last four digits, unless --full is given.

mod common;

use common::*;

/// A folder in which every file has the SSN 123456789, damaged files among them.
fn folder(name: &str) -> Folder {
    let folder = Folder::with_master(name);
    folder.write("rejects.bin", &paper_rejects());
    folder.write("two.bin", &two_rows("00"));
    folder.write("weekly.bin", &weekly());
    folder.write("left.bin", &second_rows());
    folder.write("journal.bin", &second_journal());
    folder.write("rec.bin", &record(&[(1, "RECOH000123456789")]));
    // without their last records, and of a wrong length
    folder.write("no-control.bin", &paper_batch()[..490]);
    folder.write("no-total.bin", &weekly()[..960]);
    folder.write("short.bin", &paper_batch()[..244]);
    let keys = "OH123456789N\nOH987654321A\n123456789\nOH-987654321-A\n";
    folder.write("keys.txt", keys.as_bytes());
    let mut unsound = paper_row();
    unsound[12] = 0;
    folder.write("unsound.bin", &unsound);
    folder
}

const LISTS: [&str; 4] = ["--locals", "locals.bin", "--year", "2007"];

/// Commands over these files.
fn commands() -> Vec<Vec<&'static str>> {
    let mut list: Vec<Vec<&str>> = Vec::new();
    for master in ["master.bin", "unsound.bin", "two.bin"] {
        for batch in ["batch.bin", "no-control.bin", "short.bin", "rec.bin"] {
            list.push(with(&["check", master, batch], &LISTS));
        }
        list.push(vec!["find", master, "OH123456789N"]);
        list.push(vec!["find", master, "OH123456789X"]);
        list.push(vec!["find", master, "OH987654321A", "OH123456789N"]);
        list.push(vec!["find", master, "123456789", "OH123456789NN"]);
        list.push(vec!["find", master, "--keys", "keys.txt"]);
        list.push(vec!["add-cents", master]);
        list.push(vec!["pages", master, "--out", "pages.bin", "--force"]);
        list.push(vec!["show", "master", master]);
    }
    for (kind, file) in [
        ("batch", "batch.bin"),
        ("batch", "no-control.bin"),
        ("batch", "short.bin"),
        ("rejects", "rejects.bin"),
        ("rejects", "no-control.bin"),
        ("reconciliation", "rec.bin"),
        ("collections", "weekly.bin"),
        ("collections", "no-total.bin"),
    ] {
        list.push(vec!["show", kind, file]);
        list.push(vec!["show", kind, file, "--list"]);
    }
    list.push(vec!["take-back", "left.bin", "journal.bin", "--dry-run"]);
    list.push(vec!["take-back", "two.bin", "journal.bin", "--dry-run"]);
    list.push(vec!["post", "two.bin", "no-total.bin"]);
    list.push(vec!["post", "two.bin", "weekly.bin"]);
    list
}

#[test]
fn no_ssn_is_printed_whole() {
    let folder = folder("masks-masked");
    for command in commands() {
        for form in [&[][..], &["--json"]] {
            let ran = folder.run(&with(&command, form));
            let printed = ran.out + &ran.err;
            assert!(!printed.is_empty() || ran.status == 0, "{command:?}");
            for digits in ["12345", "98765"] {
                assert!(!printed.contains(digits), "{command:?} {form:?}: {printed}");
            }
        }
    }
}

#[test]
fn full_ssns_where_they_are_asked_for() {
    let folder = folder("masks-full");
    for command in [
        with(&["check", "master.bin", "batch.bin"], &LISTS),
        vec!["find", "master.bin", "OH123456789N"],
        vec!["find", "master.bin", "--keys", "keys.txt"],
        vec!["show", "batch", "batch.bin"],
        vec!["show", "master", "master.bin"],
        vec!["show", "rejects", "rejects.bin", "--list"],
        vec!["show", "reconciliation", "rec.bin"],
        vec!["show", "collections", "weekly.bin"],
        vec!["find", "unsound.bin", "OH123456789N"],
        vec!["post", "two.bin", "weekly.bin"],
        vec!["take-back", "left.bin", "journal.bin"],
    ] {
        let ran = folder.run(&with(&command, &["--full"]));
        let printed = (ran.out + &ran.err).replace("\n   ", "");
        assert!(printed.contains("123456789"), "{command:?}: {printed}");
        assert!(!printed.contains("*****"), "{command:?}: {printed}");
    }
}

#[test]
fn no_digit_of_records_out_of_their_columns() {
    let folder = folder("masks-columns");
    let ascii: Vec<u8> = b"OH   123456789"
        .iter()
        .copied()
        .chain([b' '; 231])
        .collect();
    let lines = [&ascii[..], b"\n"].concat().repeat(12);
    folder.write("lines.txt", &lines);
    let rct = record(&[(1, "RCTOH000000000000000001000000001")]);
    let rec = record(&[(1, "RECOH000123456789")]);
    folder.write("rec-rct.bin", &[rec, rct].concat());
    folder.write("two.bin", &two_rows("00"));
    for command in [
        vec!["show", "batch", "lines.txt", "--ascii"],
        vec!["show", "batch", "lines.txt"],
        vec!["show", "batch", "two.bin"],
        vec!["show", "contacts", "two.bin"],
        vec!["show", "collections", "lines.txt", "--ascii"],
        vec!["show", "batch", "rec-rct.bin"],
        vec!["show", "rejects", "rec-rct.bin"],
        vec!["show", "reconciliation", "batch.bin"],
    ] {
        for form in [&[][..], &["--json"], &["--list"]] {
            let ran = folder.run(&with(&command, form));
            assert_eq!(ran.status, 3, "{command:?}");
            for digits in ["1234", "6789", "x31", "4321"] {
                assert!(!ran.out.contains(digits), "{command:?}: {}", ran.out);
            }
            let told = ran.out + &ran.err;
            assert!(told.contains("digits are masked"), "{command:?}: {told}");
        }
    }
    let ran = folder.run(&["show", "batch", "lines.txt", "--ascii", "--full"]);
    assert!(ran.out.contains("123456789") && !ran.err.contains("masked"));
}

#[test]
fn keys_in_wrong_places() {
    let folder = folder("masks-places");
    for (command, status, shown) in [
        // three keys, of which none is one
        (vec!["find", "master.bin", "OH", "123456789", "N"], 2, ""),
        (vec!["find", "OH123456789N", "master.bin"], 3, "*****6789"),
        (
            vec!["find", "master.bin", "--keys", "OH123456789N"],
            3,
            "*****6789",
        ),
    ] {
        for form in [&[][..], &["--json"]] {
            let ran = folder.run(&with(&command, form));
            assert_eq!(ran.status, status, "{command:?}");
            let told = ran.out + &ran.err;
            assert!(told.contains(shown), "{command:?}: {told}");
            assert!(!told.contains("12345"), "{command:?}: {told}");
        }
    }
}

#[test]
fn input_without_end_is_no_key() {
    let folder = folder("masks-endless");
    let long = "1".repeat(4096);
    for input in [&long[..], "OH123456789NN\n", "OH123456789N OH\n"] {
        let ran = folder.run_with_input(&["find", "master.bin", "-"], input);
        assert_eq!(ran.status, 2, "{ran:?}");
        assert!(ran.out.contains("refused 14") && ran.out.contains("  line     1\n"));
    }
}

#[test]
fn keys_from_standard_input() {
    let folder = folder("masks-input");
    for input in ["OH123456789N\n", "OH123456789N", "OH123456789N\r\n"] {
        let ran = folder.run_with_input(&["find", "master.bin", "-"], input);
        assert_eq!(ran.status, 0, "{ran:?}");
        assert!(ran.out.contains("OH*****6789N"));
    }
    let ran = folder.run_with_input(&["find", "master.bin", "-"], "");
    assert_eq!(ran.status, 3);
}

#[test]
fn bytes_that_are_no_characters() {
    let folder = folder("masks-bytes");
    let mut row = paper_row();
    for (at, byte) in row[34..50].iter_mut().enumerate() {
        *byte = [0x00, 0x1B, 0x07, 0xFF][at % 4];
    }
    row[194] = 0b0010_0010;
    folder.write("master.bin", &row);
    let show = ["show", "master", "master.bin"];
    let ran = folder.run(&show);
    assert!(ran.out.contains("SMIT................"), "{}", ran.out);
    assert!(ran.out.contains("RET,PAS"));
    assert!(ran
        .out
        .bytes()
        .all(|b| b == b'\n' || (b' '..=b'~').contains(&b)));
    let ran = folder.run(&with(&show, &["--json"]));
    assert!(
        ran.out.contains("\"SMIT\\\\x00\\\\x1B\\\\x07\\\\xFF"),
        "{}",
        ran.out
    );
    assert!(ran
        .out
        .contains("\"exclusion_indicators\":[\"RET\",\"PAS\"]"));
}

#[test]
fn bytes_that_have_no_ascii() {
    let folder = folder("masks-ascii");
    let mut row = paper_row();
    row[34] = 0;
    folder.write("master.bin", &row);
    let reconcile = [
        "reconcile",
        "master.bin",
        "--state",
        "OH",
        "--date",
        "20071231",
    ];
    let ran = folder.run(&with(&reconcile, &["--out", "out.bin", "--ascii"]));
    assert_eq!(ran.status, 2);
    assert!(
        ran.err.contains("(record 1, column 37) is hexadecimal 00"),
        "{}",
        ran.err
    );
    assert!(!folder.has("out.bin"));
    let ran = folder.run(&with(&reconcile, &["--out", "out.bin"]));
    assert_eq!(ran.status, 0);
}

/// A batch whose only detail has an SSN in fields of other kinds.
fn typed_elsewhere() -> Vec<u8> {
    let detail = record(&[
        (1, "OH"),
        (6, "900000001"),
        (15, "123456789"),
        (30, "SMITH 123-45-6789"),
        (50, "123456789JR"),
        (65, "00000001"),
        (73, "AN"),
        (84, "C/O 1234567890"),
        (171, "123456789"),
    ]);
    [detail, control(0, 1, 0, 1)].concat()
}

#[test]
fn ssns_in_fields_of_other_kinds() {
    let folder = folder("masks-typed");
    folder.write("typed.bin", &typed_elsewhere());
    let mut row = paper_row();
    row[15..24].copy_from_slice(&ebcdic("123456789"));
    row[90..101].copy_from_slice(&ebcdic("123-45-6789"));
    row[2..11].copy_from_slice(&ebcdic("900000001"));
    folder.write("typed-master.bin", &row);
    let check = with(&["check", "master.bin", "typed.bin"], &LISTS);
    for command in [
        vec!["show", "batch", "typed.bin"],
        vec!["show", "batch", "typed.bin", "--list"],
        vec!["show", "master", "typed-master.bin", "--list"],
        vec!["find", "typed-master.bin", "OH900000001N"],
        check,
    ] {
        for form in [&[][..], &["--json"]] {
            let ran = folder.run(&with(&command, form));
            let told = ran.out + &ran.err;
            assert!(told.contains("6789"), "{command:?}: {told}");
            assert!(
                !told.contains("12345") && !told.contains("123-45"),
                "{told}"
            );
            let ran = folder.run(&with(&with(&command, form), &["--full"]));
            assert!(ran.out.contains("12345") || ran.out.contains("123-45"));
        }
    }
}

#[test]
fn ssns_in_arguments() {
    let folder = folder("masks-arguments");
    folder.write("123456789.bin", b"x");
    for command in [
        vec!["123456789"],
        vec!["find", "123-45-6789.bin", "OH123456789N"],
        vec!["show", "123456789", "batch.bin"],
        vec!["show", "batch", "123456789.bin"],
        vec!["show", "batch", "batch.bin", "--from", "123456789x"],
        vec!["show", "batch", "batch.bin", "--123456789"],
        vec!["explain", "123456789"],
        vec!["explain", "OH123456789N"],
        vec!["to-ascii", "123456789.bin", "--out", "123-45-6789.txt"],
        vec!["to-ascii", "batch.bin", "--out", "123456789.bin"],
        vec!["to-ascii", "batch.bin", "--out", "123-45-6789.txt"],
        vec!["codes", "table.bin", "--state", "123456789", "--out", "x"],
        vec!["log", "123456789.bin"],
    ] {
        for form in [&[][..], &["--json"]] {
            let ran = folder.run(&with(&command, form));
            let told = ran.out + &ran.err;
            assert!(
                !told.contains("12345") && !told.contains("123-45"),
                "{told}"
            );
        }
    }
}

#[test]
fn wrong_ssns_are_told_by_their_kind() {
    let folder = folder("masks-kind");
    for (ssn, kind) in [
        ("000456789", "area 000"),
        ("666456789", "area 666"),
        ("123450000", "serial 0000"),
        ("123006789", "group 00"),
        ("12345678 ", "not nine digits"),
        ("000000000", "area 000, group 00, serial 0000"),
    ] {
        let detail = record(&[(1, "OH"), (6, ssn), (30, "SMITH"), (73, "DN")]);
        folder.write("wrong.bin", &[detail, control(0, 1, 0, 0)].concat());
        let check = with(&["check", "master.bin", "wrong.bin"], &LISTS);
        let ran = folder.run(&check);
        assert_eq!(ran.status, 1, "{ran:?}");
        let line = format!(", {kind}\n");
        assert!(ran.out.contains(&line), "{}", ran.out);
        assert!(!ran.out.contains(&ssn[..6]), "{}", ran.out);
        let ran = folder.run(&with(&check, &["--json"]));
        let member = format!("\"ssn_fault\":\"{kind}\"");
        assert!(ran.out.contains(&member), "{}", ran.out);
        assert!(!ran.out.contains(&ssn[..6]), "{}", ran.out);
    }
}
