//! Command lines and files made up by chance: no fault of the program, no status that the command's help lacks, an end in time, and
//! no SSN whole. FANTANOLIVE_FUZZ gives another number of command lines, and of damaged files, than the usual one.

mod common;

use std::collections::HashMap;
use std::time::{Duration, Instant};

use common::*;

/// Numbers that look like chance.
struct Chance(u64);

impl Chance {
    fn below(&mut self, limit: usize) -> usize {
        self.0 = self
            .0
            .wrapping_mul(6_364_136_223_846_793_005)
            .wrapping_add(1);
        (self.0 >> 33) as usize % limit
    }

    fn of<T: Copy>(&mut self, list: &[T]) -> T {
        list[self.below(list.len())]
    }
}

fn runs() -> usize {
    let given = std::env::var("FANTANOLIVE_FUZZ").ok();
    given.and_then(|runs| runs.parse().ok()).unwrap_or(400)
}

/// The program in a folder, with the statuses that the help of each command names.
struct Tried {
    folder: Folder,
    statuses: HashMap<String, Vec<i32>>,
}

impl Tried {
    fn new(name: &str) -> Tried {
        let folder = Folder::new(name);
        let mut statuses = HashMap::new();
        for command in COMMANDS {
            let help = folder.run(&[command, "--help"]).out;
            let (_, table) = help.split_once("Exit status:\n").expect("a table");
            let numbers = table.lines().filter_map(|line| {
                let (number, _) = line.strip_prefix("  ")?.split_once("  ")?;
                number.parse().ok()
            });
            statuses.insert(command.to_string(), numbers.collect());
        }
        Tried { folder, statuses }
    }

    fn run(&self, arguments: &[&str]) -> Ran {
        let start = Instant::now();
        let ran = self.folder.run(arguments);
        let what = || format!("{arguments:?}: {ran:?}");
        assert!(
            self.statuses[arguments[0]].contains(&ran.status),
            "{}",
            what()
        );
        assert!(!ran.err.contains("a fault of the program"), "{}", what());
        assert!(start.elapsed() < Duration::from_secs(20), "{}", what());
        let shows = ran.out.contains("123456789") || ran.err.contains("123456789");
        let may_show = arguments
            .iter()
            .any(|one| matches!(*one, "--full" | "-" | "--template"));
        assert!(may_show || !shows, "{}", what());
        ran
    }
}

const COMMANDS: [&str; 24] = [
    "apply",
    "check",
    "build",
    "control",
    "split",
    "merge",
    "take-back",
    "find",
    "edit",
    "records",
    "reconcile",
    "compare",
    "pages",
    "post",
    "add-cents",
    "log",
    "contacts",
    "codes",
    "to-ebcdic",
    "to-ascii",
    "show",
    "export",
    "agree",
    "explain",
];

const WORDS: [&str; 40] = [
    "two.bin",
    "batch.bin",
    "old.bin",
    "weekly.bin",
    "contacts.bin",
    "table.bin",
    "rec.bin",
    "details.csv",
    "keys.txt",
    "journal.bin",
    "none",
    "OH123456789N",
    "oh123-45-6789n",
    "batch",
    "master",
    "collections",
    "rejects",
    "17",
    "-",
    "",
    "--json",
    "--full",
    "--all",
    "--lines",
    "--ascii",
    "--new",
    "--force",
    "--quiet",
    "--by-office",
    "--dry-run",
    "--anyway",
    "--again",
    "--template",
    "--list",
    "--text",
    "--code",
    "--",
    "--limit",
    "é",
    "--json=x",
];

const VALUED: [(&str, &[&str]); 18] = [
    ("--locals", &["locals.bin", "batch.bin", "none"]),
    ("--year", &["2007", "0", "x"]),
    ("--out", &["made", "part", "-", "two.bin", "no/folder"]),
    ("--rejects", &["made", "-"]),
    ("--journal", &["made-journal", "journal.bin"]),
    ("--state", &["OH", "oh", "ZZ", "O", ""]),
    ("--date", &["20071231", "20071331", ""]),
    ("--limit", &["0", "3", "99999999999999999999", "x"]),
    ("--html", &["page.html", "-"]),
    ("--csv", &["list.csv", "-", "batch.bin"]),
    ("--records", &["2", "made-records", "0"]),
    ("--at", &["1", "1,2", "9", "a"]),
    ("--keys", &["keys.txt", "none", "-"]),
    ("--fields", &["ssn", "ssn,status", "x", ""]),
    ("--where", &["ssn=123-45-6789", "status=", "x", "=", ","]),
    ("--search", &["smith", "123-45-6789", "", "é"]),
    ("--amount", &["7", "0", "999999999"]),
    ("--count", &["1", "0"]),
];

/// The files, and the width of their records.
fn files(log: &[u8]) -> Vec<(&'static str, Vec<u8>, usize)> {
    let rec = record(&[
        (1, "RECOH000123456789"),
        (33, "SMITH"),
        (53, "JOHN"),
        (63, "00000031N"),
    ]);
    let rct = record(&[(1, "RCTOH000000000000000001000000001"), (33, "20071231")]);
    let csv = b"submitting_state_code,ssn,transaction_type\nOH,123-45-6789,D\n".to_vec();
    vec![
        ("none.bin", Vec::new(), 200),
        ("two.bin", two_rows("00"), 200),
        ("old.bin", two_rows("  "), 200),
        ("one.bin", two_rows("00")[..200].to_vec(), 200),
        ("left.bin", second_rows(), 200),
        ("batch.bin", paper_batch(), 245),
        ("second.bin", second_batch(), 245),
        ("batch.txt", ascii(&paper_batch()), 245),
        ("rejects.bin", paper_rejects(), 245),
        ("rec.bin", [rec, rct].concat(), 245),
        ("weekly.bin", weekly(), 240),
        ("weekly.txt", ascii(&weekly()), 240),
        ("contacts.bin", contact_file(), 220),
        ("table.bin", contact_table(), 220),
        ("journal.bin", second_journal(), 16),
        ("locals.bin", ebcdic("003007"), 3),
        ("details.csv", csv, 20),
        ("keys.txt", b"OH123456789N\noh987-65-4321a\n".to_vec(), 13),
        ("two.bin.log", log.to_vec(), 50),
    ]
}

/// Bytes that mean something to one reader or another.
const BYTES: [u8; 24] = *b"\n\r\0\xFF\t ,\"'\\<&0A\x40\x4B\x6B\xC1\xD5\xF0\xF9\xC0\xD0\xE0";

/// Changes one thing of a file of records.
fn damage(bytes: &mut Vec<u8>, width: usize, chance: &mut Chance) {
    let place = chance.below(bytes.len() + 1);
    let start = place - place % width;
    let end = bytes.len().min(start + width);
    match chance.below(9) {
        0 => bytes.truncate(place),
        1 => bytes.insert(place, chance.of(&BYTES)),
        2 => bytes.extend_from_within(start..end),
        3 => drop(bytes.drain(start..end)),
        4 => bytes[start..end].reverse(),
        5 => bytes[start..end].fill(chance.of(&BYTES)),
        6 => bytes.extend(bytes.repeat(20)),
        7 if place < bytes.len() => bytes[place] = chance.below(256) as u8,
        _ if place < bytes.len() => bytes[place] = chance.of(&BYTES),
        _ => bytes.push(chance.of(&BYTES)),
    }
}

/// Command lines that are right, over these files.
const LINES: &[&str] = &[
    "check two.bin batch.bin --locals locals.bin --year 2007 --all --by-office",
    "check two.bin batch.bin --locals locals.bin --year 2007 --html page --csv list --force --json",
    "check none.bin batch.txt --new --lines --locals locals.bin --year 2007 --limit 2",
    "apply two.bin second.bin --locals locals.bin --year 2007 --rejects made --journal kept --force --again",
    "apply two.bin batch.txt --ascii --locals locals.bin --year 2007 --rejects made --force --again --json",
    "take-back left.bin journal.bin --anyway",
    "take-back left.bin journal.bin --dry-run --json",
    "post two.bin weekly.bin --again --all --html page --csv list --force",
    "post two.bin weekly.txt --ascii --dry-run --json",
    "contacts table.bin contacts.bin --html page --csv list --force --all",
    "contacts none.bin contacts.bin --new --json",
    "codes table.bin --state OH --out made --force",
    "find two.bin --keys keys.txt --json",
    "find two.bin OH123456789N",
    "edit two.bin OH123456789N --amount 30 --exclusions TAX --local-code 003 --locals locals.bin --out made --force",
    "records one.bin left.bin --locals locals.bin --out made --force",
    "reconcile two.bin --state OH --date 20071231 --out made --force --lines",
    "compare two.bin rec.bin --state OH --records made --locals locals.bin --html page --csv list --force",
    "compare two.bin rec.bin --state OH --json",
    "pages two.bin --out made --text --force",
    "add-cents old.bin",
    "log two.bin",
    "log two.bin --json",
    "split second.bin --records 1 --out part --force",
    "merge batch.bin second.bin --out made --anyway --force",
    "build details.csv --out made --state OH --force --lines",
    "control batch.bin --out made --force",
    "to-ebcdic batch.txt --out made --force",
    "to-ascii batch.bin --out made --force",
    "show master two.bin --list --all",
    "show batch second.bin --json --all",
    "show rejects rejects.bin",
    "show reconciliation rec.bin --search smith",
    "show contacts table.bin --lines --all",
    "show collections weekly.bin --list --all",
    "show collections weekly.txt --ascii --where case_type_indicator=N",
    "show locals locals.bin --json",
    "export master two.bin --out made --force",
    "export batch batch.txt --lines --out made --force",
    "export collections weekly.bin --out made --force --json",
];

#[test]
fn command_lines_by_chance() {
    let tried = Tried::new("fuzzed-lines");
    let mut chance = Chance(11);
    for number in 0..runs() {
        if number % 10 == 0 {
            for (name, bytes, _) in files(b"") {
                tried.folder.write(name, &bytes);
            }
        }
        let mut arguments = vec![chance.of(&COMMANDS)];
        for _ in 0..chance.below(4) {
            arguments.push(chance.of(&WORDS));
        }
        for _ in 0..chance.below(5) {
            let (name, values) = chance.of(&VALUED);
            arguments.extend([name, chance.of(values)]);
        }
        tried.run(&arguments);
    }
}

/// The log of a master that has a posting.
fn log_of_a_posting(folder: &Folder) -> Vec<u8> {
    folder.write("two.bin", &two_rows("00"));
    folder.write("weekly.bin", &weekly());
    folder.run(&["post", "two.bin", "weekly.bin"]);
    folder.read("two.bin.log")
}

#[test]
fn files_by_chance() {
    let tried = Tried::new("fuzzed-files");
    let files = files(&log_of_a_posting(&tried.folder));
    let mut chance = Chance(23);
    let mut met = [0; 7];
    for _ in 0..runs() {
        let line = chance.of(LINES);
        let arguments: Vec<&str> = line.split(' ').collect();
        let is_read = |name: &str| arguments.contains(&name) || name.ends_with(".log");
        let named: Vec<usize> = (0..files.len())
            .filter(|&at| is_read(files[at].0))
            .collect();
        let damaged = chance.of(&named);
        for &at in &named {
            let (name, mut bytes, width) = files[at].clone();
            let times = if at == damaged {
                1 + chance.below(3)
            } else {
                0
            };
            for _ in 0..times {
                damage(&mut bytes, width, &mut chance);
            }
            tried.folder.write(name, &bytes);
        }
        let ran = tried.run(&arguments);
        met[ran.status as usize] += 1;
        assert!(!ran.err.contains("usage:"), "{arguments:?}: {ran:?}");
        let left = tried.folder.names();
        let left: Vec<&String> = left.iter().filter(|name| name.ends_with(".tmp")).collect();
        assert!(left.is_empty(), "{arguments:?}: {left:?}");
    }
    // carried out, with rejects, refused, a problem
    assert!(met[..4].iter().all(|&count| count > 0), "{met:?}");
}
