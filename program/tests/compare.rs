//! A reconciliation file that was received against the one that a master gives, and the records that lead the other side there.

mod common;

use std::fs;
use std::path::Path;

use common::*;

const COMPARE: [&str; 5] = ["compare", "two.bin", "received.bin", "--state", "OH"];

/// A REC record of OH.
fn rec(ssn: &str, case_type: &str, name: [&str; 2], amount: &str) -> Vec<u8> {
    record(&[
        (1, "RECOH000"),
        (9, ssn),
        (33, name[0]),
        (53, name[1]),
        (63, amount),
        (71, case_type),
    ])
}

/// The RCT record of so many TANF and Non-TANF cases.
fn rct(tanf: usize, non_tanf: usize) -> Vec<u8> {
    let all = tanf + non_tanf;
    let counts = format!("RCTOH{tanf:09}{non_tanf:09}{all:09}20071231");
    record(&[(1, &counts)])
}

/// A master of two rows, and a file with one of them at another amount and a third case.
fn folder(name: &str) -> Folder {
    let folder = Folder::new(name);
    folder.write("two.bin", &two_rows("00"));
    let received = [
        rec("555555555", "A", ["DOE", "JANE"], "00000040"),
        rec("123456789", "N", ["SMITH", "JOHN"], "00000030"),
        rct(1, 1),
    ];
    folder.write("received.bin", &received.concat());
    folder
}

#[test]
fn cases_here_and_there() {
    let folder = folder("compare-cases");
    let ran = folder.run(&COMPARE);
    let expected = Path::new(env!("CARGO_MANIFEST_DIR")).join("tests/expected/compare.txt");
    assert_eq!(ran.out, fs::read_to_string(expected).expect("it is there"));
    assert_eq!((ran.status, ran.err.as_str()), (1, ""));
    let files = ["--csv", "list.csv", "--html", "page.html"];
    assert_eq!(folder.run(&with(&COMPARE, &files)).status, 1);
    let csv = "key,name,found,field,here,there\n\
               OH*****6789N,\"SMITH, JOHN\",differs,Current Arrearage Amount,00000025,00000030\n\
               OH*****5555A,\"DOE, JANE\",only there,,,\n\
               OH*****4321A,\"SMITH, JOHN\",only here,,,\n";
    assert_eq!(
        String::from_utf8(folder.read("list.csv")).expect("it is text"),
        csv
    );
    assert!(folder.read("page.html").starts_with(b"<!doctype html>"));
    let json = folder.run(&with(&COMPARE, &["--json"])).out;
    let cases = "\"cases_here\":{\"all\":2,\"the_same\":0,\"differ\":1,\"only_here\":1},\"cases_there\":{\"all\":2,\"the_same\":0,\"differ\":1,\"only_there\":1,\"again\":0}";
    assert!(json.contains(cases), "{json}");
}

/// A case that differs goes by the name that the master has.
#[test]
fn names_are_the_masters() {
    let folder = folder("compare-names");
    let received = [
        rec("123456789", "N", ["SMYTH", "JOHN"], "00000025"),
        rct(0, 1),
    ];
    folder.write("received.bin", &received.concat());
    let ran = folder.run(&COMPARE);
    let shown =
        "OH*****6789N  SMITH, JOHN  differs\n    Obligor Last Name: 'SMITH' here, 'SMYTH' there\n";
    assert!(ran.out.contains(shown), "{}", ran.out);
}

#[test]
fn what_a_master_gives_is_the_same() {
    let folder = folder("compare-same");
    let reconcile = [
        "reconcile",
        "two.bin",
        "--state",
        "OH",
        "--date",
        "20071231",
        "--out",
        "own.bin",
    ];
    assert_eq!(folder.run(&reconcile).status, 0);
    let same = ["compare", "two.bin", "own.bin", "--state", "OH"];
    let ran = folder.run(&same);
    assert_eq!(ran.status, 0, "{ran:?}");
    assert!(
        ran.out.starts_with("compare: every case is the same\n"),
        "{}",
        ran.out
    );
    // in another order, with a hold indicator of the federal side's, and one case twice
    let own = folder.read("own.bin");
    let mut held = own[245..490].to_vec();
    held[79] = 0xC8;
    folder.write("own.bin", &[&held, &own[..245], &own[490..]].concat());
    assert_eq!(folder.run(&same).status, 0);
    folder.write(
        "own.bin",
        &[&held[..], &own[..245], &own[..245], &own[490..]].concat(),
    );
    let ran = folder.run(&same);
    assert!(
        ran.out.contains("OH*****6789N  SMITH, JOHN  again there\n"),
        "{}",
        ran.out
    );
    assert_eq!(ran.status, 1);
}

#[test]
fn one_record_by_hand() {
    let folder = folder("compare-record");
    let ran = folder.run(&with(&COMPARE, &["--records", "records.bin"]));
    assert_eq!(ran.status, 1, "{ran:?}");
    let counts = "  records                1\n  cases with records     1\n  cases without records  2\n  written                records.bin\n";
    assert!(ran.out.contains(counts), "{}", ran.out);
    let m = record(&[
        (1, "OH"),
        (6, "123456789"),
        (30, "SMITH"),
        (65, "00000025MN"),
    ]);
    assert_eq!(
        folder.read("records.bin"),
        [m, control(0, 1, 0, 25)].concat()
    );
}

/// Six rows of the other side, and the same with five changed.
fn theirs_and_ours() -> (Vec<u8>, Vec<u8>) {
    let mut rows: Vec<Vec<u8>> = (1..=6)
        .map(|n| row(&format!("OH90000000{n}N"), "00000100", "00"))
        .collect();
    let theirs = rows.concat();
    rows[0][65..73].copy_from_slice(&ebcdic("00000070"));
    rows[0][196..198].copy_from_slice(&ebcdic("50"));
    rows[1][15..17].copy_from_slice(&ebcdic("A1"));
    rows[2][12..15].copy_from_slice(&ebcdic("003"));
    rows[3][194] = 0b0010_0010;
    // deleted here
    rows[4][65..73].copy_from_slice(&ebcdic("00000000"));
    rows[4][195] = 0xC4;
    (theirs, rows.concat())
}

/// The records applied to the other side's master leave nothing to compare.
#[test]
fn records_lead_there() {
    let folder = Folder::new("compare-lead");
    let (theirs, ours) = theirs_and_ours();
    folder.write("ours.bin", &ours);
    folder.write("theirs.bin", &theirs);
    folder.write("locals.bin", &ebcdic("003"));
    let reconcile =
        words("reconcile theirs.bin --state OH --date 20071231 --out received.bin --force");
    assert_eq!(folder.run(&reconcile).status, 0);
    let compare = words("compare ours.bin received.bin --state OH --locals locals.bin");
    let ran = folder.run(&with(&compare, &["--records", "records.bin"]));
    assert_eq!(ran.status, 1, "{ran:?}");
    assert!(
        ran.out.contains("  records                5\n"),
        "{}",
        ran.out
    );
    let lists = words("--locals locals.bin --year 2007 --rejects rejects.bin");
    let ran = folder.run(&with(&["apply", "theirs.bin", "records.bin"], &lists));
    assert_eq!(ran.status, 0, "{ran:?}");
    assert_eq!(folder.run(&reconcile).status, 0);
    let ran = folder.run(&compare);
    assert!(
        ran.out.starts_with("compare: every case is the same\n"),
        "{}",
        ran.out
    );
    // a code that isn't listed can't be sent
    folder.write("theirs.bin", &theirs);
    assert_eq!(folder.run(&reconcile).status, 0);
    let records = ["--records", "records.bin", "--force"];
    let ran = folder.run(&with(&compare[..5], &records));
    assert!(
        ran.out.contains("  records                4\n"),
        "{}",
        ran.out
    );
}

#[test]
fn files_that_are_none() {
    let folder = folder("compare-none");
    let whole = folder.read("received.bin");
    for (bytes, words) in [
        (
            &whole[..490],
            "the last of 2 records has no RCT in columns 1-3",
        ),
        (
            &whole[..489],
            "489 bytes: 1 record of 245 bytes and 244 bytes over",
        ),
        (&[], "the file is empty"),
    ] {
        folder.write("received.bin", bytes);
        let ran = folder.run(&COMPARE);
        assert_eq!((ran.status, ran.out.as_str()), (3, ""), "{ran:?}");
        assert!(ran.err.contains(words), "{}", ran.err);
    }
    folder.write("received.bin", &rct(0, 0));
    assert_eq!(folder.run(&COMPARE).status, 1);
    let mut wrong = COMPARE;
    wrong[4] = "XX";
    assert_eq!(folder.run(&wrong).status, 2);
}

/// The received file's own counts and state are held against its records, in every form of the report.
#[test]
fn what_the_file_says_of_itself() {
    let folder = folder("compare-itself");
    let received = folder.read("received.bin");
    let cut = [&received[..245], &received[490..]].concat();
    folder.write("received.bin", &cut);
    let files = ["--csv", "list.csv", "--html", "page.html"];
    let ran = folder.run(&with(&COMPARE, &files));
    assert_eq!(ran.status, 1, "{ran:?}");
    let heading =
        "compare: 3 cases are not the same; the received file is not what it says of itself\n";
    assert!(ran.out.starts_with(heading), "{}", ran.out);
    let note = "the RCT record states 1 as Non-TANF Cases Returned (15-23), and the file has 0: is it whole?";
    let text = ran.out.replace("\n    ", " ");
    let (above, below) = text.split_once("3 cases that are not").expect("a list");
    assert!(above.contains(note) && !below.contains(note), "{text}");
    for file in ["list.csv", "page.html"] {
        let report = String::from_utf8(folder.read(file)).expect("it is text");
        assert!(report.contains(note), "{report}");
    }
    let json = folder.run(&with(&COMPARE, &["--json"])).out;
    assert!(json.contains(&format!("\"notes\":[\"{note}\",")), "{json}");
    // every case the same, and another state in the RCT record
    let reconcile = "reconcile two.bin --state OH --date 20071231 --out own.bin";
    assert_eq!(folder.run(&words(reconcile)).status, 0);
    let mut own = folder.read("own.bin");
    own[493..495].copy_from_slice(&ebcdic("KY"));
    folder.write("received.bin", &own);
    let ran = folder.run(&COMPARE);
    assert_eq!(ran.status, 1, "{ran:?}");
    assert!(ran
        .out
        .starts_with("compare: every case is the same; the received file is"));
    let note = "  the RCT record is of state 'KY' (4-5), and --state is OH\n";
    assert!(ran.out.contains(note), "{}", ran.out);
    let ran = folder.run(&["compare", "two.bin", "own.bin", "--state", "KY"]);
    assert!(ran
        .out
        .contains("2 of 2 records have another state than KY, record 1 the first"));
}

/// The batch is for the other side, and what it lacks is said.
#[test]
fn what_is_said_of_the_batch() {
    let folder = folder("compare-batch");
    let two = folder.read("two.bin");
    let mut coded = two.clone();
    coded[12..15].copy_from_slice(&ebcdic("007"));
    folder.write("two.bin", &coded);
    let batch = with(&COMPARE, &["--records", "records.bin", "--force"]);
    let text = folder.run(&batch).out;
    let note =
        "  1 case needs an L record, and no code is listed without --locals FILE: left to you\n";
    assert!(text.contains(note), "{text}");
    let of_them = "  the batch is for the federal side: don't apply it to MASTER";
    assert!(!text.contains(of_them), "{text}");
    let left = "SMITH, JOHN  differs, left to you\n";
    assert!(text.contains(left), "{text}");
    // a list without the code, and one with it
    for (codes, is_left) in [("001", true), ("007", false)] {
        folder.write("locals.bin", &ebcdic(codes));
        let text = folder.run(&with(&batch, &["--locals", "locals.bin"])).out;
        assert!(!text.contains("--locals FILE"), "{text}");
        assert_eq!(text.contains(left), is_left, "{text}");
        assert_eq!(text.contains(of_them), !is_left, "{text}");
    }
    folder.write("two.bin", &two);
    let text = folder.run(&batch).out;
    assert!(text.contains("SMITH, JOHN  differs\n") && text.contains("only there, left to you\n"));
    let json = folder.run(&with(&batch, &["--json"])).out;
    let member = "\"found\":\"differs\",\"left_to_you\":\"no\"";
    assert!(json.contains(member), "{json}");
}
