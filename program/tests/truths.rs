//! What reports say: counts that add up, places from 1, singular and plural, nothing shown, files of another kind.

mod common;

use common::*;

/// The number behind a name in a report.
fn count(report: &str, name: &str) -> u64 {
    let front = |line: &str| line.trim_start().starts_with(&format!("{name}  "));
    let line = report.lines().find(|line| front(line));
    let line = line.unwrap_or_else(|| panic!("no {name}: {report}"));
    let number = line.split_whitespace().next_back().expect("a number");
    number.replace(',', "").parse().expect("a number")
}

#[test]
fn counts_add_up() {
    let folder = Folder::with_master("truths-counts");
    let detail = |kind: &str, code: &str| {
        record(&[
            (1, "OH"),
            (3, code),
            (6, "900000001"),
            (30, "SMITH"),
            (50, "JOHN"),
            (65, "00000100"),
            (73, kind),
        ])
    };
    let details = [detail("AN", "001"), detail("MX", ""), detail("XN", "")];
    let batch = [details.concat(), control(0, 2, 0, 100)].concat();
    folder.write("batch.bin", &batch);
    let report = folder.run(&CHECK).out;
    let part = |name: &str| count(&report, &format!("of which {name}"));
    let sum = part("accepted") + part("rejected") + part("neither");
    assert_eq!(count(&report, "details"), sum);
    assert_eq!((sum, part("warned"), part("neither")), (3, 1, 1));
    assert!(report.contains("\n2 records to fix\n"), "{report}");
    assert!(report.contains("\n1 record accepted with a warning\n"));
    folder.write("two.bin", &two_rows("00"));
    folder.write("weekly.bin", &weekly());
    let report = folder.run(&["post", "two.bin", "weekly.bin"]).out;
    let part = |name: &str| count(&report, &format!("of which {name}"));
    assert_eq!(count(&report, "lines"), part("posted") + part("not posted"));
    folder.write("contacts.bin", &contact_file());
    let report = folder
        .run(&["contacts", "t.bin", "contacts.bin", "--new"])
        .out;
    let part = |name: &str| count(&report, &format!("of which {name}"));
    assert_eq!(
        count(&report, "records read"),
        part("good") + part("faulty")
    );
}

#[test]
fn a_check_in_json_says_that_nothing_is_written() {
    let folder = Folder::with_master("truths-check");
    let json = folder.run(&with(&CHECK, &["--json"])).out;
    assert!(
        json.contains("\"outcome\":\"would be carried out\""),
        "{json}"
    );
    assert!(json.contains("\"written\":[]"), "{json}");
    assert_eq!(folder.names(), ["batch.bin", "locals.bin", "master.bin"]);
}

#[test]
fn find_and_show_count_alike() {
    let folder = Folder::new("truths-places");
    folder.write("two.bin", &two_rows("00"));
    let find = folder.run(&["find", "two.bin", "OH987654321A"]).out;
    assert!(find.contains("  row      2, the first being 1\n"), "{find}");
    let json = folder
        .run(&["find", "two.bin", "OH987654321A", "--json"])
        .out;
    assert!(json.contains("\"row\":2,\"rows\":2"), "{json}");
    let show = folder
        .run(&["show", "master", "two.bin", "--from", "2"])
        .out;
    assert!(
        show.starts_with("row 2 of 2, the first being 1\n"),
        "{show}"
    );
    assert!(show.contains("\n     2  OH") && show.contains("*****4321"));
    let show = folder.run(&["show", "master", "two.bin"]).out;
    assert!(
        show.starts_with("rows 1 to 2 of 2, the first being 1\n"),
        "{show}"
    );
}

#[test]
fn nothing_shown_is_said() {
    let folder = Folder::new("truths-nothing");
    folder.write("two.bin", &two_rows("00"));
    folder.write("empty.bin", b"");
    for (arguments, words) in [
        (
            &["two.bin", "--from", "3"][..],
            "no row is shown of 2 rows\n",
        ),
        (&["two.bin", "--count", "0"], "no row is shown of 2 rows\n"),
        (&["empty.bin"], "no row: the file has none\n"),
    ] {
        let ran = folder.run(&with(&["show", "master"], arguments));
        assert_eq!((ran.status, ran.out.as_str()), (0, words), "{arguments:?}");
    }
}

#[test]
fn files_of_another_kind_stop_early() {
    let folder = Folder::with_master("truths-kinds");
    let rows: Vec<u8> = (0..49)
        .flat_map(|n| row(&format!("OH9000000{n:02}N"), "00000100", "00"))
        .collect();
    // 49 rows are as long as 40 records
    folder.write("rows.bin", &rows);
    folder.write("batch.txt", &ascii(&paper_batch()));
    let many = paper_batch()[..245].repeat(40);
    folder.write("many.bin", &many);
    for (kind, file, first) in [
        ("batch", "rows.bin", "record 1"),
        ("batch", "batch.txt", "record 1"),
        ("master", "many.bin", "row 1"),
        ("master", "batch.bin", "row 1"),
        ("collections", "rows.bin", "line 1"),
    ] {
        let ran = folder.run(&["show", kind, file]);
        assert_eq!(ran.status, 3, "{kind} {file}: {ran:?}");
        let words = format!("{first} can't be one of a file of this kind ({kind})");
        assert!(ran.err.contains(&words), "{kind} {file}: {}", ran.err);
        assert!(ran.out.lines().count() < 70, "{kind} {file}");
        let all = folder.run(&["show", kind, file, "--all"]);
        assert!(all.out.len() > ran.out.len(), "{kind} {file}");
    }
}

#[test]
fn a_number_that_is_two_things() {
    let folder = Folder::new("truths-explain");
    let both = folder.run(&["explain", "17"]).out;
    assert!(both.starts_with("17 as a refusal of a whole call (--refusal)\nrefusal 17: "));
    assert!(
        both.contains("\n\n17 as a code of a record (--code)\ncode 17: "),
        "{both}"
    );
    for option in ["--refusal", "--code"] {
        assert!(!folder
            .run(&["explain", "17", option])
            .out
            .contains(" as a "));
    }
}
