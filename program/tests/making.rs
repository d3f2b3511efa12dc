//! Files that people make: batches from CSV, control records, and records as CSV.

mod common;

use common::*;

const BUILD: [&str; 4] = ["build", "details.csv", "--out", "made.bin"];

fn folder(name: &str, csv: &str) -> Folder {
    let folder = Folder::with_example(name);
    folder.write("details.csv", csv.as_bytes());
    folder
}

/// The paper's two details, in other words than a record has.
const PAPER: &str = "transaction_type,case_type_indicator,submitting_state_code,ssn,obligor_last_name,obligor_first_name,arrearage_amount\r\n\
                     A,N,OH,123-45-6789,SMITH,JOHN,25\r\n\
                     M,N,OH,123456789,SMYTH,,00000100\r\n";

#[test]
fn the_papers_batch() {
    let folder = folder("making-paper", PAPER);
    let ran = folder.run(&BUILD);
    assert_eq!(ran.status, 0, "{ran:?}");
    let text = "build: carried out\n  details              2\n    of which TANF      0\n    of which Non-TANF  2\n  TANF dollars         0\n  Non-TANF dollars     125\n  written              made.bin\n";
    assert_eq!(ran.out, text);
    assert_eq!(folder.read("made.bin"), paper_batch());
    assert_eq!(folder.run(&with(&BUILD, &["--ascii", "--force"])).status, 0);
    assert_eq!(folder.read("made.bin"), ascii(&paper_batch()));
    // the CSV file in other forms
    for other in [
        format!("\u{FEFF}{PAPER}"),
        PAPER.replace("\r\n", "\n\n"),
        PAPER.replace("SMITH", "\"SMITH\"").trim_end().to_string(),
        PAPER.replace("obligor_last_name", " Obligor_Last_Name "),
        PAPER.replace("obligor_last_name", "Obligor Last Name"),
        // rows and columns that a spreadsheet leaves empty
        format!(",,\r\n{PAPER},,,,,,\r\n , ,\r\n"),
        PAPER.replace("\r\n", ",,\r\n"),
    ] {
        folder.write("details.csv", other.as_bytes());
        assert_eq!(folder.run(&with(&BUILD, &["--force"])).status, 0);
        assert_eq!(folder.read("made.bin"), paper_batch());
    }
}

/// CSV files that are wrong, each with what is said of it.
fn wrong_texts() -> Vec<(String, &'static str)> {
    vec![
        (
            PAPER.replace("SMYTH", "Smyth"),
            "line 3, column obligor_last_name: 'Smyth' has 'm', a lower case letter",
        ),
        (
            PAPER.replace(",25\r", ",123456789\r"),
            "line 2, column arrearage_amount: '*****6789' has 9 characters, and the field 8",
        ),
        (
            PAPER.replace("SMYTH", "MÜLLER"),
            "'MÜLLER' has 'Ü', which is no character of the code page",
        ),
        (
            PAPER.replace("ssn", "number"),
            "line 1: no field is named 'number'; `fantanolive build --template --out FILE` writes",
        ),
        (
            PAPER.replace("ssn", "transaction_type"),
            "line 1: two columns are named 'transaction_type'",
        ),
        (
            PAPER.replace("SMYTH", "SMYTH,,100,X,X"),
            "line 3: cell 8 is 'X', and the first line has no name there",
        ),
        (
            PAPER.replace("SMYTH", "\"SMYTH"),
            "line 3: quotation marks are not closed",
        ),
        (String::new(), "the file has no line of names"),
        (
            PAPER.lines().next().expect("a line").to_string(),
            "give the state with --state",
        ),
    ]
}

/// The same of files that are no CSV files with a line of names.
fn other_texts() -> Vec<(String, &'static str)> {
    vec![
        (
            PAPER.replace(',', ";"),
            "the columns seem to be parted by semicolons: save the file with commas",
        ),
        (
            PAPER.lines().skip(1).collect::<Vec<_>>().join("\n"),
            "line 1 names no field, the first cell being 'A': is the line of names missing",
        ),
    ]
}

#[test]
fn what_does_not_fit() {
    for (csv, words) in wrong_texts().into_iter().chain(other_texts()) {
        let folder = folder("making-wrong", &csv);
        let ran = folder.run(&BUILD);
        assert_eq!((ran.status, ran.out.as_str()), (3, ""), "{csv}: {ran:?}");
        let text = ran.err.replace("\n    ", " ");
        assert!(text.contains(words), "{words}: {}", ran.err);
        assert!(!folder.has("made.bin"));
    }
}

#[test]
fn what_is_no_batch_or_no_text() {
    let ran = folder("making-state", &PAPER.replace("OH", "XX")).run(&BUILD);
    assert_eq!(ran.status, 2, "{ran:?}");
    let folder = folder("making-bytes", "");
    for (bytes, words) in [
        (&b"a\nb\xFF"[..], "line 2 is no text in UTF-8: byte 3"),
        (b"\xFF\xFEa\0", "line 1: the file is in UTF-16"),
    ] {
        folder.write("details.csv", bytes);
        let ran = folder.run(&BUILD);
        assert!(ran.status == 3 && ran.err.contains(words), "{ran:?}");
    }
}

/// A CSV file of one detail with a value in a column.
fn with_value(column: &str, value: &str) -> String {
    format!("submitting_state_code,case_type_indicator,{column}\nOH,N,\"{value}\"\n")
}

/// Columns of digits with values that are none, and what is wanted.
const NO_DIGITS: [(&str, &str, &str); 14] = [
    ("arrearage_amount", "1,500", "whole dollars, digits only"),
    ("arrearage_amount", "1500.00", "whole dollars, digits only"),
    ("arrearage_amount", "-1500", "whole dollars, digits only"),
    ("arrearage_amount", "(1,500)", "whole dollars, digits only"),
    ("arrearage_amount", "  50", "whole dollars, digits only"),
    ("ssn", "12345678", "nine digits"),
    ("ssn", "123 45 67", "nine digits"),
    ("local_code", "25", "three digits, or nothing"),
    ("transfer_local_code", "5", "three digits, or nothing"),
    ("date_issued", "1/5/2007", "CCYYMMDD"),
    ("date_issued", "01152007x", "CCYYMMDD"),
    ("process_year", "07", "four digits"),
    ("obligor_zip_code", "4321", "five or nine digits"),
    ("obligor_zip_code", "43215-123", "five or nine digits"),
];

#[test]
fn what_is_no_digits() {
    for (column, value, wanted) in NO_DIGITS {
        let folder = folder("making-digits", &with_value(column, value));
        let ran = folder.run(&BUILD);
        assert_eq!((ran.status, ran.out.as_str()), (3, ""), "{ran:?}");
        let text = ran.err.replace("\n    ", " ");
        assert!(
            text.contains(&format!("line 2, column {column}: ")),
            "{text}"
        );
        assert!(text.contains(wanted), "{text}");
        assert!(!folder.has("made.bin"));
        // one that is too long for its field is no value to be taken as it stands
        let is_long = value == "01152007x";
        let hint = "--as-is takes such values as they stand";
        assert_eq!(text.contains(hint), !is_long, "{text}");
        let ran = folder.run(&with(&BUILD, &["--as-is"]));
        assert_eq!(ran.status, if is_long { 3 } else { 0 }, "{ran:?}");
    }
}

#[test]
fn details_of_no_case_type() {
    let folder = folder("making-neither", &PAPER.replace("A,N", "A,X"));
    let ran = folder.run(&BUILD);
    assert!(
        ran.out.contains("    of which neither   1\n"),
        "{}",
        ran.out
    );
    let ran = folder.run(&with(&BUILD, &["--force", "--json"]));
    assert!(ran.out.contains("\"neither\":1"), "{}", ran.out);
}

/// A reject file that was exported is built: the columns of a reject record alone are passed over.
#[test]
fn rejects_are_built_again() {
    let folder = folder("making-rejects", "");
    folder.write("rejects.bin", &paper_rejects());
    let export = "export rejects rejects.bin --out details.csv --force";
    assert_eq!(folder.run(&words(export)).status, 0);
    let ran = folder.run(&BUILD);
    assert_eq!(ran.status, 0, "{ran:?}");
    let note = "passed over, since a detail has no such field: rejected_error_codes, ocse_last_name, filler_244_244";
    let text = ran.out.replace("\n    ", " ");
    assert!(text.contains(note), "{text}");
    let built = folder.read("made.bin");
    assert_eq!(built[..245], paper_batch()[245..490]);
}

/// No message of build has more of an SSN than its last four digits.
#[test]
fn ssns_are_masked_in_errors() {
    let record = "OH025123456789OH-1           SMITH               JOHN";
    let texts = [
        record.to_string(),
        format!("ssn,{record}\n"),
        format!("ssn\n{record}\n"),
        format!("case_id\n{record}\n"),
        with_value("ssn", "123 45 6789"),
        with_value("ssn", "123.45.6789"),
        with_value("ssn", "1234-56789"),
        with_value("ssn", "123\u{2013}45\u{2013}6789"),
        with_value("ssn", "123456789x"),
        with_value("obligor_last_name", "Smith 123/45/6789"),
        with_value("arrearage_amount", "123-456-789"),
        format!("ssn\n012345678,{record}\n"),
    ];
    for (csv, form) in texts
        .iter()
        .flat_map(|text| [(text, "--wait=0"), (text, "--json")])
    {
        let folder = folder("making-masked", csv);
        let ran = folder.run(&with(&BUILD, &[form]));
        assert_eq!(ran.status, 3, "{csv}: {ran:?}");
        let told = ran.out + &ran.err;
        assert!(told.contains("**"), "{told}");
        let digits: String = told.chars().filter(char::is_ascii_digit).collect();
        assert!(!digits.contains("56789") && !told.contains("123"), "{told}");
    }
}

#[test]
fn many_errors_are_counted() {
    let lines: String = (0..15).map(|_| "Zx\n").collect();
    let folder = folder("making-many", &format!("obligor_last_name\n{lines}"));
    let ran = folder.run(&BUILD);
    assert!(ran.err.contains("details.csv: 15 errors\n"), "{}", ran.err);
    assert!(ran.err.contains("  and 5 more\n"), "{}", ran.err);
}

#[test]
fn the_template() {
    let folder = folder("making-template", "");
    let ran = folder.run(&["build", "--template", "--out", "names.csv"]);
    assert_eq!(ran.status, 0, "{ran:?}");
    let names = String::from_utf8(folder.read("names.csv")).expect("it is text");
    assert!(names.starts_with("submitting_state_code,local_code,ssn,case_id,obligor_last_name,"));
    assert_eq!((names.lines().count(), names.split(',').count()), (1, 20));
    folder.write("details.csv", names.as_bytes());
    assert_eq!(folder.run(&with(&BUILD, &["--state", "OH"])).status, 0);
    assert_eq!(folder.read("made.bin"), control(0, 0, 0, 0));
    for wrong in [
        &["build", "--out", "x"][..],
        &["build", "a", "b", "--out", "x"],
        &["build", "a", "--template", "--out", "x"],
    ] {
        assert_eq!(folder.run(wrong).status, 3, "{wrong:?}");
    }
}

/// Some details, with more and more changed.
fn changed_details(round: usize, next: &mut impl FnMut() -> usize) -> Vec<u8> {
    let mut details: Vec<u8> = Vec::new();
    for _ in 0..1 + next() % 5 {
        let mut detail = paper_batch()[..245].to_vec();
        for _ in 0..next() % (3 * round + 1) {
            let place = 2 + next() % 243;
            detail[place] = [0x40, 0xF0, 0x00, 0xC1, 0x6B, 0x7D, 0xFF, next() as u8][next() % 8];
        }
        details.extend(detail);
    }
    details
}

/// build of export gives the same bytes, whatever stands in the details.
#[test]
fn exported_and_built_again() {
    let folder = folder("making-again", "");
    let mut seed: u64 = 9;
    let mut next = || {
        seed = seed.wrapping_mul(6_364_136_223_846_793_005).wrapping_add(1);
        (seed >> 33) as usize
    };
    for round in 0..30 {
        folder.write("details.bin", &changed_details(round, &mut next));
        let control = "control details.bin --out batch.bin --force --state OH";
        if folder.run(&words(control)).status != 0 {
            continue;
        }
        let export = "export batch batch.bin --out details.csv --force";
        let ran = folder.run(&words(export));
        assert_eq!(ran.status, 0, "{ran:?}");
        let plain = ran.out.contains("left out; `build` makes the same");
        let as_is = ran.out.contains("left out; `build --as-is` makes the same");
        assert!(plain || as_is, "{}", ran.out);
        let more: &[&str] = if plain { &[] } else { &["--as-is"] };
        let ran = folder.run(&with(&with(&BUILD, &["--force"]), more));
        assert_eq!(ran.status, 0, "{ran:?}");
        assert!(
            folder.read("made.bin") == folder.read("batch.bin"),
            "round {round}"
        );
    }
}

/// Kinds of files, each with a file, its lines in CSV and the beginning of the first record.
const KINDS: [(&str, &str, usize, &str); 4] = [
    (
        "master",
        "two.bin",
        3,
        "OH,123456789,N,000,,SMITH,JOHN,00000025,,,0000,00000000,,,,,,,,,00,",
    ),
    (
        "rejects",
        "rejects.bin",
        2,
        "OH,,123456789,,SMYTH,,00000100,M,N,,,,,,,,,,,17,SMIT,,",
    ),
    (
        "collections",
        "weekly.bin",
        5,
        "OH,,123456789,,SMITH,JOHN,,00000001001,00000000000,,,,N,",
    ),
    ("contacts", "contacts.bin", 5, "OH"),
];

#[test]
fn every_kind_is_exported() {
    let folder = folder("making-kinds", "");
    folder.write("two.bin", &two_rows("00"));
    folder.write("rejects.bin", &paper_rejects());
    folder.write("weekly.bin", &weekly());
    folder.write("contacts.bin", &contact_file());
    for (kind, file, lines, first) in KINDS {
        let ran = folder.run(&["export", kind, file, "--out", "-"]);
        assert_eq!(ran.status, 0, "{ran:?}");
        assert_eq!(ran.out.lines().count(), lines, "{kind}");
        let line = ran.out.lines().nth(1).expect("a record");
        assert!(line.starts_with(first), "{line}");
    }
    assert_eq!(
        folder
            .run(&["export", "master", "batch.bin", "--out", "-"])
            .status,
        3
    );
    assert_eq!(
        folder
            .run(&["export", "nothing", "batch.bin", "--out", "-"])
            .status,
        3
    );
}

#[test]
fn control_records() {
    let folder = folder("making-control", "");
    let run = |bytes: &[u8], more: &[&str]| {
        folder.write("batch.bin", bytes);
        folder.run(&with(
            &["control", "batch.bin", "--out", "made.bin", "--force"],
            more,
        ))
    };
    let details = &paper_batch()[..490];
    let ran = run(&paper_batch(), &[]);
    assert_eq!((ran.status, folder.read("made.bin")), (0, paper_batch()));
    assert!(
        ran.out
            .starts_with("control: the control record was right\n"),
        "{}",
        ran.out
    );
    let ran = run(&[details, &control(1, 1, 7, 125)].concat(), &[]);
    assert_eq!((ran.status, folder.read("made.bin")), (0, paper_batch()));
    assert!(
        ran.out
            .starts_with("control: the control record was wrong: "),
        "{}",
        ran.out
    );
    assert!(
        ran.out
            .contains("Total TANF Records (6-14): stated 1, counted 0, difference 1"),
        "{}",
        ran.out
    );
}

#[test]
fn control_records_of_other_files() {
    let folder = folder("making-other-control", "");
    let run = |bytes: &[u8], more: &[&str]| {
        folder.write("batch.bin", bytes);
        let control = ["control", "batch.bin", "--out", "made.bin", "--force"];
        folder.run(&with(&control, more))
    };
    let details = &paper_batch()[..490];
    // none at all, in ASCII, and another state
    assert_eq!(run(details, &[]).status, 0);
    assert_eq!(folder.read("made.bin"), paper_batch());
    assert_eq!(run(&ascii(details), &["--ascii"]).status, 0);
    assert_eq!(folder.read("made.bin"), ascii(&paper_batch()));
    assert_eq!(run(&paper_batch(), &["--state", "XX"]).status, 2);
    assert_eq!(run(&paper_batch(), &["--state", "OHI"]).status, 3);
    assert_eq!(run(&paper_batch()[..700], &[]).status, 2);
    assert_eq!(run(&[], &[]).status, 2);
    // amounts that no control record has room for
    let mut large = details.to_vec();
    large[64..72].copy_from_slice(&ebcdic("99999999"));
    let many: Vec<u8> = (0..1100).flat_map(|_| large[..245].to_vec()).collect();
    assert_eq!(run(&many, &[]).status, 3);
}

#[test]
fn control_records_and_states() {
    let folder = folder("making-states", "");
    let run = |bytes: &[u8], more: &[&str]| {
        folder.write("batch.bin", bytes);
        let control = ["control", "batch.bin", "--out", "made.bin", "--force"];
        folder.run(&with(&control, more))
    };
    let ran = run(&paper_batch(), &["--state", "TX"]);
    assert_eq!(ran.status, 0, "{ran:?}");
    let heading = "control: the state is changed from 'OH' to 'TX'\n";
    assert!(ran.out.starts_with(heading), "{}", ran.out);
    let note = "  2 of 2 details have another state than TX, record 1 the first";
    assert!(ran.out.contains(note), "{}", ran.out);
    let mut mixed = paper_batch();
    mixed[245..247].copy_from_slice(&ebcdic("KY"));
    let ran = run(&mixed, &["--json"]);
    let note = "1 of 2 details have another state than OH, record 2 the first";
    assert!(ran.out.contains(note), "{}", ran.out);
    let ran = run(
        &[&paper_batch()[..490], &control(0, 1, 0, 1)].concat(),
        &["--state", "TX"],
    );
    assert!(ran.out.starts_with("control: the control record was wrong"));
    assert!(ran
        .out
        .contains("  the state is changed from 'OH' to 'TX'\n"));
}

#[test]
fn control_records_among_the_details() {
    let folder = folder("making-among", "");
    let several = [paper_batch(), paper_batch(), paper_batch()].concat();
    let blank = [paper_batch(), ebcdic(&" ".repeat(245))].concat();
    let shown = "record 3 looks like a control record: it has CTL in columns 3-5";
    for (bytes, count) in [(several, "2 control records"), (blank, "1 control record")] {
        folder.write("batch.bin", &bytes);
        let ran = folder.run(&["control", "batch.bin", "--out", "made.bin"]);
        assert_eq!((ran.status, ran.out.as_str()), (3, ""), "{ran:?}");
        let words = format!("batch.bin: {count} among the details\n  {shown}\n");
        assert!(ran.err.contains(&words), "{}", ran.err);
        assert!(!folder.has("made.bin"));
    }
}

/// Texts that look like CSV files, or don't.
#[test]
fn damaged_texts_are_told() {
    let folder = folder("making-damaged", "");
    let mut seed: u64 = 3;
    let mut next = || {
        seed = seed.wrapping_mul(6_364_136_223_846_793_005).wrapping_add(1);
        (seed >> 33) as usize
    };
    for _ in 0..150 {
        let mut bytes = PAPER.as_bytes().to_vec();
        for _ in 0..1 + next() % 6 {
            let place = next() % bytes.len();
            match next() % 3 {
                0 => bytes[place] = b"\",\n\rA1\\x\xFF"[next() % 9],
                1 => drop(bytes.remove(place)),
                _ => bytes.insert(place, b"\",\n\r\xEF Z"[next() % 7]),
            }
        }
        folder.write("details.csv", &bytes);
        let ran = folder.run(&with(&BUILD, &["--force"]));
        assert!([0, 2, 3].contains(&ran.status), "{ran:?}");
        assert!(ran.status == 0 || !ran.err.is_empty());
    }
}
