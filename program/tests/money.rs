//! The money of a posting, to the cent, and why each line that is not posted isn't.

mod common;

use common::*;

const NONE: &str = "00000000000";
const POST: [&str; 4] = ["post", "two.bin", "weekly.bin", "--dry-run"];

fn folder(name: &str, file: &[u8]) -> Folder {
    let folder = Folder::new(name);
    folder.write("two.bin", &two_rows("00"));
    folder.write("weekly.bin", file);
    folder
}

/// A last record of one collection with amounts in its four totals.
fn total_of(amounts: [&str; 4]) -> Vec<u8> {
    let mut record = total(0, 1);
    for (place, amount) in amounts.iter().enumerate() {
        record[64 + 11 * place..][..11].copy_from_slice(&ebcdic(amount));
    }
    record
}

#[test]
fn the_money_in_json() {
    let folder = folder("money-json", &weekly());
    let json = folder.run(&with(&POST, &["--json"])).out;
    let file = "\"collections_in_file\":{\"in_file\":30.01,\"posted\":30.01,\"not_posted\":0.00},\"adjustments_in_file\":{\"in_file\":1.50,\"posted\":0.50,\"not_posted\":1.00},";
    assert!(json.contains(file), "{json}");
    let closed = "\"closed\":[{\"key\":\"OH*****6789N\",\"name\":\"SMITH, JOHN\",\"excess\":5.01}]";
    assert!(json.contains(closed), "{json}");
    let money = "\"collections\":{\"collected\":30.01,\"applied\":25.00,\"excess\":5.01},\"adjusted\":0.50,\"balances_before\":125.00,\"balances_after\":100.50,\"equation\":\"125.00 before + 0.50 adjusted = 100.50 after + 30.01 collected - 5.01 excess\",\"cases_closed\":1,\"cases_with_excess\":1";
    assert!(json.contains(money), "{json}");
    let line = "\"collection\":0.00,\"adjustment\":1.00,\"reason\":\"closed in this file\",\"reason_words\":\"the case was closed by line 3 of this file\"";
    assert!(json.contains(line), "{json}");
    let reasons =
        "\"reasons\":[{\"reason\":\"closed in this file\",\"lines\":1,\"to_fix\":\"see by ";
    assert!(json.contains(reasons), "{json}");
}

#[test]
fn each_reason() {
    let lines = [
        line("123456789", "N", "0000000 100", NONE),
        line("123456789", "N", "00000000100", "00000000100"),
        line("123456780", "N", "00000000100", NONE),
        line("987654321", "A", "99999999999", NONE),
        line("987654321", "A", NONE, "00000000001"),
        line("123456789", "N", NONE, "99999999999"),
        // 25 dollars and 99,999,974.99 are 99,999,999.99; a cent more is too much
        line("123456789", "N", NONE, "09999997499"),
        line("123456789", "N", NONE, "00000000001"),
        total(5, 3),
    ];
    let folder = folder("money-reasons", &lines.concat());
    let ran = folder.run(&with(&POST, &["--csv", "list.csv"]));
    assert_eq!(ran.status, 1, "{ran:?}");
    let reasons = [
        "1,OH,*****6789,N,SMITH,JOHN,0000000 100,0.00,not eleven digits: Collection Amount '0000000 100'",
        "2,OH,*****6789,N,SMITH,JOHN,1.00,1.00,a collection and an adjustment in one line",
        "3,OH,*****6780,N,SMITH,JOHN,1.00,0.00,no case has this key",
        "5,OH,*****4321,A,SMITH,JOHN,0.00,0.01,the case was closed by line 4 of this file",
        "6,OH,*****6789,N,SMITH,JOHN,0.00,*****9999.99,the balance of 25.00 would pass 99,999,999.99",
        "8,OH,*****6789,N,SMITH,JOHN,0.00,0.01,the balance of 99,999,999.99 would pass 99,999,999.99",
    ];
    let csv = String::from_utf8(folder.read("list.csv")).expect("it is text");
    let lines: Vec<String> = csv
        .lines()
        .skip(1)
        .map(|line| line.replace('"', ""))
        .collect();
    let (lines, feet) = lines.split_at(reasons.len());
    // 1.00 and 1.00 of lines 2 and 3, and the adjustments of lines 2, 5, 6 and 8
    let sums = [
        "closed,OH,*****4321,A,SMITH,JOHN,,,excess 999,999,899.99,",
        "not posted,,,,,,2.00,1,000,000,001.01,,",
        "posted,,,,,,999,999,999.99,99,999,974.99,,",
        "in the file,,,,,,1,000,000,001.99,1,099,999,976.00,,",
    ];
    assert_eq!(feet, sums);
    for (line, reason) in lines.iter().zip(reasons) {
        // what to do stands behind the reason
        let fix = line.strip_prefix(reason).expect("it has this reason");
        assert!(fix.len() > 20 && fix.starts_with(','), "{line}");
    }
    let sums = "  collections            999,999,999.99 = 100.00 applied + 999,999,899.99 excess\n  adjusted               99,999,974.99\n  balances before        125.00\n  balances after         99,999,999.99\n";
    assert!(ran.out.contains(sums), "{}", ran.out);
}

/// The cases that were closed, the largest excess first, ten of them where nothing else is asked for.
#[test]
fn cases_that_were_closed() {
    let ssn = |n: usize| format!("{:09}", 900_000_001 + n);
    let rows = (0..12).flat_map(|n| row(&format!("OH{}N", ssn(n)), "00000001", "00"));
    let rows: Vec<u8> = rows.collect();
    let lines = (0..12).flat_map(|n| line(&ssn(n), "N", &format!("{:011}", 100 + n), NONE));
    let lines: Vec<u8> = lines.chain(total(0, 12)).collect();
    let folder = folder("money-closed", &lines);
    folder.write("two.bin", &rows);
    let ran = folder.run(&POST);
    assert_eq!(ran.status, 0, "{ran:?}");
    let list = "\n12 cases closed, the first 10\nOH*****0012N  SMITH, JOHN  excess 0.11\nOH*****0011N  SMITH, JOHN  excess 0.10\n";
    assert!(ran.out.contains(list), "{}", ran.out);
    let rest = "\n2 more: --all lists them, --html FILE and --csv FILE write them to a file\n";
    assert!(ran.out.ends_with(rest), "{}", ran.out);
    let all = folder.run(&with(&POST, &["--all", "--html", "page.html"]));
    assert!(
        all.out.ends_with("\nOH*****0001N  SMITH, JOHN\n"),
        "{}",
        all.out
    );
    let page = String::from_utf8(folder.read("page.html")).expect("it is text");
    assert!(page.contains("<h2>12 cases closed</h2>"), "{page}");
    assert_eq!(page.matches("<td data-name=\"Excess\">").count(), 12);
}

/// Refusal 23 tells what is stated, what the library counts, and the difference.
#[test]
fn counts_that_differ() {
    let mut file = weekly();
    let at = file.len() - 240;
    file.splice(at.., total(5, 2));
    let folder = folder("money-counts", &file);
    let ran = folder.run(&POST);
    assert_eq!(ran.status, 2, "{ran:?}");
    let text = ran.err.replace("\n    ", " ");
    let words = "(35-49): stated 5, counted 2, difference 3";
    assert!(text.contains(words) && !text.contains("(50-64):"), "{text}");
}

#[test]
fn cases_closed_before_the_file() {
    let lines = [line("123456789", "N", "00000000100", NONE), total(0, 1)];
    let folder = folder("money-before", &lines.concat());
    folder.write("two.bin", &two_rows_posted());
    let ran = folder.run(&POST);
    assert!(
        ran.out
            .ends_with("\n    the case was closed before this file\n"),
        "{}",
        ran.out
    );
    assert!(
        ran.out.contains("  cases closed           0\n"),
        "{}",
        ran.out
    );
}

#[test]
fn totals_that_no_rule_reads() {
    let first = line("123456789", "N", "00000000100", NONE);
    let ended = |amounts| [&first[..], &total_of(amounts)].concat();
    let blank = " ".repeat(11);
    for right in [
        ["00000000000", "00000000100", "00000000000", "00000000100"],
        [&blank, "0000000010{", &blank, &blank].map(|text| match text {
            "0000000010{" => "00000000100",
            other => other,
        }),
    ] {
        let folder = folder("money-right", &ended(right));
        let ran = folder.run(&POST);
        assert!(!ran.out.contains("the last record's"), "{}", ran.out);
        assert_eq!(ran.status, 0);
    }
    let wrong = ["00000000000", "00000000250", "0000000000X", "00000000250"];
    let folder = folder("money-wrong", &ended(wrong));
    let ran = folder.run(&POST);
    assert_eq!(ran.status, 0, "no rule reads them");
    let text = ran.out.replace('\n', " ");
    for note in [
        "the last record's Total Collection Amount (76-86) is 2.50, and the lines add up to 1.00: a difference of 1.50",
        "the last record's Total Adjustment Amount (87-97) is no amount",
        "the last record's Total Net Amount (98-108) is 2.50, and the lines add up to 1.00: a difference of 1.50",
    ] {
        assert!(text.contains(note), "{note}: {text}");
    }
    assert!(!text.contains("Certified"), "{text}");
}

#[test]
fn a_page_of_a_posting() {
    let folder = folder("money-page", &weekly());
    assert_eq!(folder.run(&with(&POST, &["--html", "page.html"])).status, 1);
    let page = String::from_utf8(folder.read("page.html")).expect("it is text");
    for part in [
        "<tr><th>equation</th><td>125.00 before + 0.50 adjusted = 100.50 after + 30.01 collected - 5.01 excess</td></tr>",
        "<td>closed in this file</td><td class=\"number\">1</td>",
        "<td data-name=\"Reason\">the case was closed by line 3 of this file</td>",
    ] {
        assert!(page.contains(part), "{part}");
    }
}
