//! What show shows: fields that are asked for, records by their values and by name, SSN or case ID; keys and states in lower case.

mod common;

use common::*;

/// Three rows: SMITH twice, and DOE with a case ID.
fn folder(name: &str) -> Folder {
    let folder = Folder::with_example(name);
    let mut third = row("OH987654322N", "00000300", "00");
    third[15..18].copy_from_slice(&ebcdic("A-7"));
    third[30..35].copy_from_slice(&ebcdic("DOE  "));
    third[12..15].copy_from_slice(&ebcdic("025"));
    let mut rows = [two_rows("00"), third].concat();
    // TAX, and RET with TAX
    rows[200 + EXCLUSIONS] = 0x10;
    rows[400 + EXCLUSIONS] = 0x12;
    folder.write("rows.bin", &rows);
    folder
}

/// Where the set of exclusions stands in a row.
const EXCLUSIONS: usize = 194;

const SHOW: [&str; 3] = ["show", "master", "rows.bin"];

fn shown(folder: &Folder, more: &[&str]) -> Vec<String> {
    let ran = folder.run(&with(&SHOW, more));
    assert_eq!((ran.status, ran.err.as_str()), (0, ""), "{more:?}");
    ran.out.lines().skip(1).map(str::to_string).collect()
}

#[test]
fn fields_that_are_asked_for() {
    let folder = folder("showing-fields");
    let lines = shown(&folder, &["--fields", "ssn,Obligor Last Name,CASE_ID"]);
    let wanted = [
        "   row  SSN        Last name             Case ID",
        "     1  *****6789  SMITH",
        "     2  *****4321  SMITH",
        "     3  *****4322  DOE                   A-7",
    ];
    assert_eq!(lines, wanted);
    let list = ["--fields", "status,cents", "--list", "--count", "1"];
    assert_eq!(
        shown(&folder, &list),
        ["row 1", "  Status      196", "  Cents   197-198  00"]
    );
    let ran = folder.run(&with(&SHOW, &["--fields", "name"]));
    assert_eq!(ran.status, 3);
    assert!(ran
        .err
        .contains("no field is named 'name': submitting_state_code, ssn,"));
    // the last record has other fields
    let batch = folder.run(&["show", "batch", "batch.bin", "--fields", "ssn"]);
    assert_eq!(batch.out.lines().count(), 4, "{}", batch.out);
}

/// Searches, each with the numbers of the rows that are shown, and what is said of their count.
const SEARCHES: [(&[&str], &str, &str); 27] = [
    (
        &["--where", "obligor_last_name=smith"],
        "1,2",
        "2 rows found",
    ),
    (&["--where", "ssn=987-65-4321"], "2", "1 row found"),
    (&["--where", "ssn=987654322"], "3", "1 row found"),
    (
        &["--where", "case_type_indicator=n,obligor_last_name=Doe"],
        "3",
        "1 row found",
    ),
    (&["--where", "case_id="], "1,2", "2 rows found"),
    (&["--where", "case_id=x"], "", "0 rows found"),
    (&["--search", "smi"], "1,2", "2 rows found"),
    (&["--search", "123-45-6789"], "1", "1 row found"),
    (&["--search", "a-7"], "3", "1 row found"),
    (&["--search", "john"], "1,2,3", "3 rows found"),
    (
        &["--search", "john", "--count", "2"],
        "1,2",
        "3 rows found, the first 2 are shown",
    ),
    (
        &["--search", "john", "--count", "1"],
        "1",
        "3 rows found, the first is shown",
    ),
    (
        &["--where", "status=", "--count", "0"],
        "",
        "3 rows found, none is shown",
    ),
    (
        &["--search", "john", "--count", "3"],
        "1,2,3",
        "3 rows found",
    ),
    (&["--where", "arrearage_amount=25"], "1", "1 row found"),
    (&["--where", "arrearage_amount=2"], "", "0 rows found"),
    (&["--where", "arrearage_amount=0,300"], "3", "1 row found"),
    (&["--where", "cents=0,local_code=25"], "3", "1 row found"),
    (&["--where", "local_code=25"], "3", "1 row found"),
    (
        &["--where", "exclusion_indicators=tax"],
        "2,3",
        "2 rows found",
    ),
    (
        &["--where", "exclusion_indicators=RET,TAX"],
        "3",
        "1 row found",
    ),
    (&["--where", "exclusion_indicators="], "1", "1 row found"),
    (&["--search", "4321"], "2", "1 row found"),
    (&["--search", "OH*****6789N"], "1", "1 row found"),
    (&["--search", "doe, john"], "3", "1 row found"),
    (&["--search", "john", "--from", "2"], "2,3", "2 rows found"),
    (
        &["--search", "987654321", "--where", "case_type_indicator=A"],
        "2",
        "1 row found",
    ),
];

#[test]
fn records_by_their_values() {
    let folder = folder("showing-where");
    let found = |more: &[&str]| {
        let lines = shown(&folder, &with(&["--fields", "ssn"], more));
        let rows = lines.iter().filter(|line| line.starts_with("     "));
        let numbers: Vec<String> = rows.map(|line| line.trim()[..1].to_string()).collect();
        let count = lines.last().cloned().unwrap_or_default();
        (numbers.join(","), count)
    };
    for (more, numbers, count) in SEARCHES {
        assert_eq!(
            found(more),
            (numbers.to_string(), count.to_string()),
            "{more:?}"
        );
    }
    for wrong in [
        ["--where", "ssn"],
        ["--where", "x=1"],
        ["--where", "ssn=1,"],
    ] {
        assert_eq!(folder.run(&with(&SHOW, &wrong)).status, 3);
    }
    let json = folder.run(&with(&SHOW, &["--search", "doe", "--json"])).out;
    assert_eq!(json.matches("\"record\":").count(), 1, "{json}");
    assert!(json.ends_with("],\"found\":1}\n"), "{json}");
    let first = ["--search", "john", "--count", "1", "--json"];
    let json = folder.run(&with(&SHOW, &first)).out;
    assert!(json.ends_with("],\"found\":3}\n"), "{json}");
}

#[test]
fn no_ssn_is_shown_by_a_search() {
    let folder = folder("showing-masks");
    for more in [["--search", "123456789"], ["--where", "ssn=123-45-6789"]] {
        let ran = folder.run(&with(&SHOW, &more));
        assert!(
            ran.out.contains("*****6789") && !ran.out.contains("123456789"),
            "{}",
            ran.out
        );
    }
}

/// A file that is no list of local codes may have SSNs, three digits of which look like a code.
#[test]
fn lists_that_are_none() {
    let folder = folder("showing-locals");
    let show = |more: &[&str]| folder.run(&with(&["show", "locals", "codes.bin"], more));
    folder.write("codes.bin", &ebcdic("003025"));
    let ran = show(&[]);
    assert_eq!(ran.status, 0, "{ran:?}");
    assert!(ran.out.contains("003") && ran.out.contains("025"));
    for file in [ebcdic("OH123456789N"), ascii(&ebcdic("OH123456789N"))] {
        folder.write("codes.bin", &file);
        let form: &[&str] = if file[0] == b'O' { &["--ascii"] } else { &[] };
        let ran = show(form);
        assert_eq!(ran.status, 3, "{ran:?}");
        assert!(ran.out.contains("     1  OH*\n"), "{}", ran.out);
        assert!(ran.out.contains("     3  ***\n"), "{}", ran.out);
        let words =
            "codes.bin: code 1 of 4 is not three digits: the file is no list of local codes";
        assert!(ran.err.contains(words), "{}", ran.err);
        assert!(show(&with(form, &["--full"])).out.contains("234"));
    }
}

#[test]
fn keys_and_states_in_lower_case() {
    let folder = folder("showing-keys");
    for key in ["oh123456789n", "OH123-45-6789N", "Oh123-45-6789n"] {
        let ran = folder.run(&["find", "rows.bin", key]);
        assert_eq!(ran.status, 0, "{key}: {ran:?}");
    }
    let edit = [
        "edit",
        "rows.bin",
        "oh123-45-6789n",
        "--amount",
        "7",
        "--out",
        "edit.bin",
    ];
    assert_eq!(folder.run(&edit).status, 0);
    let reconcile = [
        "reconcile",
        "rows.bin",
        "--state",
        "oh",
        "--date",
        "20071231",
        "--out",
        "rec.bin",
    ];
    let ran = folder.run(&reconcile);
    assert!(
        ran.status == 0 && ran.out.contains("  state                OH\n"),
        "{ran:?}"
    );
    for wrong in ["oh123456789", "oh12345678-9n", "oh123-45-6789nn"] {
        assert_eq!(
            folder.run(&["find", "rows.bin", wrong]).status,
            2,
            "{wrong}"
        );
    }
}

/// At 80 columns the fields that matter stand first.
#[test]
fn what_matters_is_first() {
    let folder = folder("showing-first");
    folder.write("weekly.bin", &weekly());
    let front = |kind: &str, file: &str| {
        let out = folder.run(&["show", kind, file]).out;
        let line = out.lines().nth(1).expect("names").to_string();
        line[..80.min(line.len())].to_string()
    };
    let master = front("master", "rows.bin");
    assert!(master.starts_with(
        "   row  St  SSN        Ty  Last name             First name       Amount    D"
    ));
    assert!(
        front("batch", "batch.bin").contains("Tr  Last name             First name       Amount")
    );
    assert!(front("collections", "weekly.bin")
        .contains("Last name             Collection    Adjustment"));
}
