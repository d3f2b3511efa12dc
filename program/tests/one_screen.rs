//! One screen first: the verdict, the codes by how often they stand, the first records, each with its fields as they were sent.

mod common;

use common::*;

/// A detail of OH with an SSN from 900000001 on.
fn detail(number: usize, fields: &[(usize, &str)]) -> Vec<u8> {
    let ssn = (900_000_000 + number).to_string();
    let own = [(1, "OH"), (6, &ssn), (30, "SMITH"), (50, "JOHN")];
    record(&[&own[..], fields].concat())
}

/// A folder with a batch of details for Non-TANF cases and no master.
fn folder(name: &str, details: &[Vec<u8>], dollars: u64) -> Folder {
    let folder = Folder::with_example(name);
    let control = control(0, details.len() as u64, 0, dollars);
    folder.write("batch.bin", &[details.concat(), control].concat());
    folder
}

fn check(folder: &Folder, more: &[&str]) -> Ran {
    folder.run(&with(&CHECK, &with(&["--new"], more)))
}

/// Twelve M of cases that are not there, of offices 003 and blank, and an A.
fn missing_cases(name: &str) -> Folder {
    let mut details: Vec<Vec<u8>> = (1..=12)
        .map(|n| detail(n, &[(3, ["003", "   "][n % 2]), (65, "00000010MN")]))
        .collect();
    details.push(detail(20, &[(65, "00000030AN")]));
    folder(name, &details, 150)
}

#[test]
fn verdicts() {
    let folder = missing_cases("screen-verdicts");
    let ran = check(&folder, &["--quiet"]);
    assert_eq!(
        (ran.status, ran.out.as_str()),
        (1, "check: not ready: 12 records to fix\n")
    );
    let ran = folder.run(&with(&APPLY, &["--new", "--quiet"]));
    assert_eq!(ran.out, "apply: carried out, 12 records rejected\n");
    let add = detail(1, &[(65, "00000030AN")]);
    let right = self::folder("screen-right", &[add], 30);
    let ran = check(&right, &["--quiet"]);
    assert_eq!(
        (ran.status, ran.out.as_str()),
        (0, "check: ready to send\n")
    );
    let warned = folder_of_warned();
    let ran = check(&warned, &["--quiet"]);
    let words = "check: ready to send, 1 record with a warning\n";
    assert_eq!((ran.status, ran.out.as_str()), (0, words));
}

fn folder_of_warned() -> Folder {
    folder(
        "screen-warned",
        &[detail(1, &[(3, "999"), (65, "00000030AN")])],
        30,
    )
}

#[test]
fn the_first_ten_and_the_rest() {
    let folder = missing_cases("screen-ten");
    let listed = |more: &[&str]| {
        let ran = check(&folder, more);
        let records = ran.out.lines().filter(|line| line.starts_with("record "));
        (records.count(), ran.out)
    };
    let (count, text) = listed(&[]);
    assert_eq!(count, 10);
    assert!(
        text.contains("\n12 records to fix, the first 10\n"),
        "{text}"
    );
    let rest = "\n2 more: --all lists them, --html FILE and --csv FILE write them to a file\n";
    assert!(text.ends_with(rest), "{text}");
    let (count, text) = listed(&["--all"]);
    assert_eq!((count, text.contains(" more: ")), (12, false));
    let (count, text) = listed(&["--limit", "1"]);
    assert!(count == 1 && text.contains("\n11 more: "), "{text}");
    assert_eq!(listed(&["--limit", "0"]).0, 0);
    assert_eq!(listed(&["--limit", "12"]).0, 12);
    let json = |more: &[&str]| check(&folder, &with(&["--json"], more)).out;
    assert_eq!(json(&[]).matches("\"record\":").count(), 12);
    assert_eq!(json(&["--limit", "3"]).matches("\"record\":").count(), 3);
    assert!(json(&[]).contains("],\"left_out\":0}"));
    assert!(json(&["--limit", "3"]).contains("],\"left_out\":9}"));
    let rest = "\n11 more: --all lists them; without --limit files have them too\n";
    let (_, text) = listed(&["--limit", "1", "--csv", "list.csv"]);
    assert!(text.ends_with(rest), "{text}");
    for wrong in [&["--limit", "x"][..], &["--limit", "1", "--all"]] {
        assert_eq!(check(&folder, wrong).status, 3);
    }
}

/// Where a list is cut the records to fix come first, in files as in text.
#[test]
fn errors_come_first() {
    let warned = |n| detail(n, &[(3, "999"), (65, "00000030AN")]);
    let wrong = |n| detail(n, &[(65, "00000010MN")]);
    let details = [warned(1), warned(2), wrong(3), warned(4), wrong(5)];
    let folder = folder("screen-first", &details, 110);
    let numbers = |limit: &str| {
        let files = ["--html", "page.html", "--csv", "list.csv"];
        let limit = ["--limit", limit, "--force", "--json"];
        let ran = check(&folder, &with(&limit, &files));
        let json = ran.out.split("{\"record\":").skip(1);
        let json = json.map(|part| part[..1].to_string());
        let csv = String::from_utf8(folder.read("list.csv")).expect("it is text");
        let csv = csv.lines().skip(1).map(|line| line[..1].to_string());
        let page = String::from_utf8(folder.read("page.html")).expect("it is text");
        let caption = page
            .split("<h2>")
            .last()
            .and_then(|part| part.split('<').next());
        let caption = caption.unwrap_or_default().to_string();
        (json.collect::<String>(), csv.collect::<String>(), caption)
    };
    for (limit, records, caption) in [
        ("2", "35", "5 records with a code, the first 2"),
        ("3", "351", "5 records with a code, the first 3"),
        ("0", "", "5 records with a code, none of them listed"),
        ("5", "12345", "5 records with a code"),
    ] {
        let wanted = (
            records.to_string(),
            records.to_string(),
            caption.to_string(),
        );
        assert_eq!(numbers(limit), wanted, "{limit}");
    }
}

#[test]
fn dollars_and_codes() {
    let folder = missing_cases("screen-dollars");
    let text = check(&folder, &[]).out;
    let sums = "  TANF dollars         0 = 0 accepted + 0 rejected\n  Non-TANF dollars     150 = 30 accepted + 120 rejected\n";
    assert!(text.contains(sums), "{text}");
    let codes = "\nCodes, the most frequent first\n09 no live case with this key on the master: 12 records\n   to fix: check the three fields; ";
    assert!(text.contains(codes), "{text}");
}

#[test]
fn offices() {
    let folder = missing_cases("screen-offices");
    let text = check(&folder, &["--by-office", "--limit", "1"]).out;
    let table = "\nBy local office\noffice             to fix      warned\nno local code           6           0\n003                     6           0\n";
    assert!(text.contains(table), "{text}");
    // spaces stand before digits, so record 1 of the blank office comes first
    assert!(text.contains("\nrecord 1  OH*****0001N"), "{text}");
    let json = check(&folder, &["--by-office", "--json"]).out;
    let offices = "\"offices\":[{\"local_code\":\"\",\"to_fix\":6,\"warned\":0},{\"local_code\":\"003\",\"to_fix\":6,\"warned\":0}]";
    assert!(json.contains(offices), "{json}");
}

/// A record without a code goes by its case's row.
#[test]
fn offices_of_cases() {
    let folder = Folder::with_example("screen-cases");
    let mut rows = two_rows("00");
    rows[12..15].copy_from_slice(&ebcdic("025"));
    folder.write("master.bin", &rows);
    let wrong = |ssn: &str| record(&[(1, "OH"), (6, ssn), (30, "DOE"), (65, "00000010MN")]);
    let batch = [wrong("123456789"), wrong("200110001"), control(0, 2, 0, 20)];
    folder.write("batch.bin", &batch.concat());
    let ran = folder.run(&with(&CHECK, &["--by-office", "--html", "page.html"]));
    let table = "no local code           1           0\n025                     1           0\n";
    assert!(ran.out.contains(table), "{}", ran.out);
    let line = "record 1  OH*****6789N  type M  DOE  office 025\n";
    assert!(ran.out.contains(line), "{}", ran.out);
    let page = String::from_utf8(folder.read("page.html")).expect("it is text");
    let table = "<h2>By local office</h2>";
    assert!(page.contains(table), "{page}");
    let line = "<td data-name=\"Office\">025</td><td data-name=\"To fix\">1</td><td data-name=\"Warned\">0</td>";
    assert!(page.contains(line), "{page}");
}

/// Each code with the field that it is about and the value that was sent.
#[test]
fn codes_name_fields_and_values() {
    let case = [(65, "00000030AN"), (84, "1 MAIN ST"), (144, "AKRON")];
    let adds = detail(1, &[&case[..], &[(3, "000"), (15, "A1")]].concat());
    let wrong: [(&[(usize, &str)], &str); 13] = [
        (&[(1, "XX"), (73, "DN")], "01 state not in the table of 54, or not the control record's: Submitting State Code 'XX'"),
        (&[(6, "000111111"), (73, "DN")], "SSN '*****1111', area 000"),
        (&[(73, "XN")], "03 transaction type unknown: Transaction Type 'X'"),
        (&[(30, "O'NEIL"), (73, "DN")], "Obligor Last Name 'O'NEIL'"),
        (&[(50, "1"), (73, "BN")], "06 first name does not begin with a letter: Obligor First Name '1OHN'"),
        (&[(65, "1,500"), (73, "MN")], "07 amount not eight digits: Arrearage Amount '1,500'"),
        (&[(65, "00000024"), (73, "AN")], "08 arrearage below 25 dollars: Arrearage Amount '00000024'"),
        (&[(73, "CN")], "11 case ID blank: Case ID blank"),
        (&[(73, "TN"), (75, "XX")], "12 transfer state not in the table of 54: Transfer State Code 'XX'"),
        (&[(65, "00000010SN"), (80, "1999")], "Process Year '1999'"),
        (&[(73, "ZN"), (84, "1 MAIN ST"), (169, "OH"), (171, "4430")], "14 address incomplete or wrong: Obligor City blank, Obligor Zip Code '4430'"),
        (&[(65, "00000030AN"), (180, "20070230")], "15 date issued not a calendar date: Date Issued '20070230'"),
        (&[(73, "RN"), (188, "RET,XYZ")], "16 exclusion word unknown: Exclusion Indicator(s) 'RET,XYZ'"),
    ];
    let mut details = vec![adds];
    details.extend(wrong.iter().map(|(fields, _)| detail(1, fields)));
    details.push(detail(1, &[(73, "DN"), (230, "X")]));
    let folder = Folder::with_example("screen-fields");
    let dollars = 30 + 24 + 30;
    let control = control(0, details.len() as u64, 0, dollars);
    folder.write("batch.bin", &[details.concat(), control].concat());
    let ran = check(&folder, &["--all"]);
    let text = ran.out.replace("\n       ", " ");
    for (_, words) in wrong {
        assert!(text.contains(&format!("{words}\n")), "{words}: {text}");
    }
    assert!(
        text.contains("18 filler not spaces: Filler 228-244 '  X'\n"),
        "{text}"
    );
}
