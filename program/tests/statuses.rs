//! The exit status of each command on good, damaged and missing files; a refusal or problem changes no file.

mod common;

use std::fs::File;
use std::time::{Duration, Instant};

use common::*;

/// Every file of a folder with its bytes.
fn contents(folder: &Folder) -> Vec<(String, Vec<u8>)> {
    let names = folder.names();
    let with_bytes = names.into_iter().map(|name| {
        let bytes = folder.read(&name);
        (name, bytes)
    });
    with_bytes.collect()
}

/// A folder with a good file for each command.
fn all_files(name: &str) -> Folder {
    let folder = Folder::with_master(name);
    folder.write("two.bin", &two_rows("00"));
    folder.write("old.bin", &two_rows("  "));
    folder.write("weekly.bin", &weekly());
    folder.write("contacts.bin", &contact_file());
    folder.write("table.bin", &contact_table());
    folder.write("second.bin", &second_batch());
    folder.write("left.bin", &second_rows());
    folder.write("back.bin", &second_journal());
    folder.write("keys.txt", b"OH123456789N\n");
    folder.write("text.txt", b"ABC 123");
    folder
}

/// A run that changes nothing: its status, and what it says on standard error.
fn unchanged(folder: &Folder, arguments: &[&str], status: i32, message: &str) {
    let before = contents(folder);
    let ran = folder.run(arguments);
    assert_eq!(ran.status, status, "{arguments:?}: {ran:?}");
    assert!(ran.err.contains(message), "{arguments:?}: {}", ran.err);
    assert_eq!(ran.out, "", "{arguments:?}");
    assert!(contents(folder) == before, "{arguments:?} changed a file");
}

/// The commands, each with the place of its files among its arguments.
fn commands() -> Vec<(Vec<&'static str>, Vec<usize>)> {
    let edit = ["edit", "master.bin", "OH123456789N"];
    let records = ["records", "master.bin", "master.bin"];
    let merge = ["merge", "batch.bin", "batch.bin", "batch.bin"];
    let reconcile = "reconcile master.bin --state OH --date 20071231 --out out.bin";
    vec![
        (APPLY.to_vec(), vec![1, 2, 4]),
        (CHECK.to_vec(), vec![1, 2, 4]),
        (vec!["find", "master.bin", "OH123456789N"], vec![1]),
        (vec!["find", "master.bin", "--keys", "keys.txt"], vec![1, 3]),
        (words(reconcile), vec![1]),
        (vec!["post", "two.bin", "weekly.bin"], vec![1, 2]),
        (vec!["add-cents", "old.bin"], vec![1]),
        (
            vec!["pages", "two.bin", "--text", "--out", "out.bin"],
            vec![1],
        ),
        (JOURNALED.to_vec(), vec![1, 2, 4]),
        (vec!["take-back", "left.bin", "back.bin"], vec![1, 2]),
        (vec!["contacts", "table.bin", "contacts.bin"], vec![1, 2]),
        (
            vec!["codes", "table.bin", "--state", "OH", "--out", "out.bin"],
            vec![1],
        ),
        (vec!["to-ebcdic", "text.txt", "--out", "out.bin"], vec![1]),
        (vec!["to-ascii", "batch.bin", "--out", "out.bin"], vec![1]),
        (vec!["show", "master", "master.bin"], vec![2]),
        (with(&edit, &["--amount", "7", "--out", "out.bin"]), vec![1]),
        (with(&records, &["--out", "out.bin"]), vec![1, 2]),
        (with(&merge, &["--out", "out.bin"]), vec![1, 2, 3]),
    ]
}

#[test]
fn files_missing() {
    let folder = all_files("statuses-missing");
    for (arguments, places) in commands() {
        for place in places {
            let mut changed = arguments.clone();
            changed[place] = "no-such.bin";
            unchanged(&folder, &changed, 3, "no-such.bin");
            unchanged(&folder, &changed, 3, "no such file");
            changed[place] = "no-folder/no-such.bin";
            unchanged(&folder, &changed, 3, "no such file");
            changed[place] = "master.bin/x";
            unchanged(&folder, &changed, 3, "no folder");
        }
    }
}

#[test]
fn folders_in_the_place_of_files() {
    let folder = all_files("statuses-folders");
    let inner = folder.path("folder");
    for (arguments, places) in commands() {
        for place in places {
            let mut changed = arguments.clone();
            changed[place] = "folder";
            std::fs::create_dir(&inner).expect("it can be made");
            let ran = folder.run(&changed);
            assert_eq!(ran.status, 3, "{changed:?}: {ran:?}");
            assert!(ran.err.contains("folder"), "{changed:?}: {}", ran.err);
            std::fs::remove_dir(&inner).expect("it is still there, and empty");
        }
    }
}

#[test]
fn outputs_that_can_not_be_written() {
    let folder = all_files("statuses-outputs");
    for (arguments, _) in commands() {
        let options = ["--journal", "--out", "--rejects"];
        // of several the last: the journal
        let Some(at) = arguments.iter().rposition(|a| options.contains(a)) else {
            continue;
        };
        for (name, message) in [
            ("no-folder/out.bin", "folder no-folder: no such file"),
            ("master.bin/out.bin", "no folder"),
            ("/", "is no name of a file"),
            ("..", "is no name of a file"),
            ("no-folder/", "no such folder"),
            ("no-folder/.", "no such folder"),
            ("/dev/null", "it is no regular file"),
        ] {
            let mut changed = arguments.clone();
            changed[at + 1] = name;
            unchanged(&folder, &changed, 3, message);
        }
    }
}

#[test]
fn statuses_of_a_batch() {
    let folder = Folder::with_master("statuses-batch");
    assert_eq!(folder.run(&CHECK).status, 1);
    let batch = |details: &[Vec<u8>], control: Vec<u8>| [details.concat(), control].concat();
    let accepted = record(&[
        (1, "OH"),
        (6, "123456789"),
        (30, "SMITH"),
        (65, "00000100"),
        (73, "MN"),
    ]);
    folder.write("batch.bin", &batch(&[accepted], control(0, 1, 0, 100)));
    assert_eq!(folder.run(&CHECK).status, 0);
    // warned alone is not rejected
    let warned = record(&[
        (1, "OH001"),
        (6, "123456789"),
        (30, "SMITH"),
        (50, "JOHN"),
        (65, "00000100"),
        (73, "AN"),
    ]);
    folder.write("batch.bin", &batch(&[warned], control(0, 1, 0, 100)));
    let ran = folder.run(&CHECK);
    assert_eq!(ran.status, 0);
    assert!(ran.out.contains("1 record accepted with a warning\nrecord 1  OH*****6789N  type A  SMITH, JOHN  office 001\n    51 warning"));
    // a record of neither case type counts as rejected
    let neither = record(&[(1, "OH"), (6, "123456789"), (30, "SMITH"), (73, "MX")]);
    folder.write("batch.bin", &batch(&[neither], control(0, 0, 0, 0)));
    let ran = folder.run(&CHECK);
    assert_eq!(ran.status, 1);
    assert!(ran.out.contains("    of which neither   1\n"));
    assert!(ran.out.contains("1 record to fix\n"));
    assert!(ran.out.contains("    04 ") && ran.out.contains("    07 "));
}

#[test]
fn a_last_record_alone() {
    let folder = Folder::with_master("statuses-alone");
    folder.write("batch.bin", &control(0, 0, 0, 0));
    let ran = folder.run(&APPLY);
    assert_eq!(ran.status, 0, "{ran:?}");
    assert!(ran.out.contains("  details              0\n"));
    let counts = "0".repeat(54);
    let rejects = record(&[(1, "OHCTL"), (6, &counts)]);
    assert_eq!(folder.read("rejects.bin"), rejects);
    assert_eq!(folder.read("master.bin"), paper_row());
    folder.write("weekly.bin", &total(0, 0));
    let ran = folder.run(&["post", "master.bin", "weekly.bin"]);
    assert_eq!(ran.status, 0, "{ran:?}");
    assert_eq!(folder.read("master.bin"), paper_row());
}

#[test]
fn more_codes_than_the_reject_record_has() {
    let folder = Folder::with_master("statuses-codes");
    let bad = record(&[
        (1, "NY"),
        (6, "000000000"),
        (65, "X"),
        (73, "A"),
        (169, "ZZ"),
        (180, "20071331"),
        (188, "XYZ"),
        (228, "X"),
    ]);
    folder.write("batch.bin", &[bad, control(0, 0, 0, 0)].concat());
    let ran = folder.run(&with(&CHECK, &["--json"]));
    assert_eq!(ran.status, 1);
    let codes = "\"errors\":[1,2,4,5,6,7,14,15,16,18],\"warnings\":[]";
    assert!(ran.out.contains(codes), "{}", ran.out);
}

#[test]
fn refusals_change_nothing() {
    let folder = all_files("statuses-refusals");
    let mut apply = APPLY;
    apply[6] = "1899";
    unchanged(&folder, &apply, 2, "refused 1: ");
    apply[6] = "10000";
    unchanged(&folder, &apply, 2, "refused 1: ");
    let reconcile = |state, date| {
        let from = ["reconcile", "master.bin", "--out", "out.bin"];
        with(&from, &["--state", state, "--date", date])
    };
    unchanged(&folder, &reconcile("ZZ", "20071231"), 2, "refused 12: ");
    unchanged(&folder, &reconcile("zz", "20071231"), 2, "refused 12: ");
    unchanged(&folder, &reconcile("OH", "20070229"), 2, "refused 13: ");
    let find = |key| ["find", "master.bin", key];
    unchanged(&folder, &find("OH123456789A"), 6, "refused 15: ");
    for key in [
        "",
        "OH123456789",
        "OH123456789x",
        "ZZ123456789N",
        "OH000456789N",
    ] {
        unchanged(&folder, &find(key), 2, "refused 14: ");
    }
}

#[test]
fn refusals_of_files_change_nothing() {
    let folder = all_files("statuses-refused-files");
    unchanged(
        &folder,
        &["post", "old.bin", "weekly.bin"],
        2,
        "refused 4: ",
    );
    unchanged(
        &folder,
        &["add-cents", "two.bin"],
        2,
        "have their cents already",
    );
    let codes = ["codes", "table.bin", "--state", "XX", "--out", "out.bin"];
    unchanged(&folder, &codes, 2, "refused 12: ");
    let table = ["contacts", "contacts.bin", "weekly.bin"];
    unchanged(&folder, &table, 2, "refused 18: ");
    folder.write("lower.txt", b"ABc");
    let lower = ["to-ebcdic", "lower.txt", "--out", "out.bin"];
    unchanged(
        &folder,
        &lower,
        2,
        "byte 2 is hexadecimal 63, a lower case letter",
    );
    let master = ["to-ascii", "master.bin", "--out", "out.bin"];
    unchanged(&folder, &master, 2, "byte 194 is hexadecimal 00");
}

#[test]
fn first_bad_row_code_and_record_are_told() {
    let folder = all_files("statuses-first");
    let rows: Vec<Vec<u8>> = (1..=9)
        .map(|n| row(&format!("OH10001000{n}A"), "00000100", "00"))
        .collect();
    let mut master = rows.concat();
    master[6 * 200 + 12] = 0x40;
    folder.write("master.bin", &master);
    unchanged(&folder, &CHECK, 2, "row 7 of 9 is the first");
    unchanged(&folder, &CHECK, 2, "key OH*****0007A");
    let full = with(&CHECK, &["--full"]);
    let ran = folder.run(&full);
    assert!(ran.err.replace("\n   ", "").contains("key OH100010007A"));
    unchanged(
        &folder,
        &["add-cents", "master.bin"],
        2,
        "row 1 of 9 is the first",
    );
    folder.write("master.bin", &paper_row());
    folder.write("locals.bin", &ebcdic("001002002003"));
    unchanged(&folder, &CHECK, 2, "code 3 of 4 is the first");
    let mut table = contact_table();
    table[220 + 5] = 0;
    folder.write("table.bin", &table);
    let codes = ["codes", "table.bin", "--state", "OH", "--out", "out.bin"];
    unchanged(&folder, &codes, 2, "record 2 of 3 is the first");
    unchanged(
        &folder,
        &["contacts", "table.bin", "contacts.bin"],
        2,
        "record 2 of 3",
    );
}

#[test]
fn parts_of_the_control_record_are_shown() {
    let folder = Folder::with_master("statuses-control");
    let details = paper_batch()[..490].to_vec();
    let with_control = |fields: &[(usize, &str)]| {
        let mut last = control(0, 2, 0, 125);
        for (column, text) in fields {
            last[column - 1..column - 1 + text.len()].copy_from_slice(&ebcdic(text));
        }
        folder.write("batch.bin", &[details.clone(), last].concat());
        folder.run(&CHECK).err.replace("\n   ", "")
    };
    assert!(with_control(&[(3, "   ")]).contains("refused 6: "));
    assert!(with_control(&[(3, "   ")]).contains("the last of 3 records has no CTL in columns 3-5"));
    let state = with_control(&[(1, "ZZ")]);
    assert!(
        state.contains("refused 20: ") && state.contains("'ZZ' as Submitting State Code (1-2)")
    );
    let form = with_control(&[(24, " ")]);
    assert!(form.contains("refused 21: "));
    assert!(
        form.contains("' 0000000000' as Total TANF Amount (24-34)"),
        "{form}"
    );
    let amount = with_control(&[(45, "6")]);
    assert!(amount.contains("refused 8: "));
    let total = "batch.bin: Total Non-TANF Amount (35-45): stated 126, counted 125, difference 1\n";
    assert!(amount.contains(total), "{amount}");
    assert!(!amount.contains("Total TANF"), "{amount}");
    // all that differ are named with the first refusal
    let count = with_control(&[(6, "000000001000000004"), (24, "99999999999")]);
    for total in [
        "refused 7: ",
        "Total TANF Records (6-14): stated 1, counted 0, difference 1\n",
        "Total Non-TANF Records (15-23): stated 4, counted 2, difference 2\n",
        "(24-34): stated 99,999,999,999, counted 0, difference 99,999,999,999\n",
    ] {
        assert!(count.contains(total), "{count}");
    }
    assert!(!count.contains("(35-45)"), "{count}");
}

/// The commands that write, each with the file that it locks first, and its status.
fn writers() -> Vec<(Vec<&'static str>, &'static str, i32)> {
    let reconcile = ["reconcile", "master.bin", "--state", "OH", "--date"];
    vec![
        (APPLY.to_vec(), "master.bin", 1),
        (vec!["post", "two.bin", "weekly.bin"], "two.bin", 1),
        (vec!["add-cents", "old.bin"], "old.bin", 0),
        (vec!["pages", "two.bin", "--out", "out.bin"], "out.bin", 0),
        (JOURNALED.to_vec(), "two.bin", 0),
        (vec!["take-back", "left.bin", "back.bin"], "left.bin", 0),
        (
            vec!["contacts", "table.bin", "contacts.bin"],
            "table.bin",
            1,
        ),
        (
            with(&reconcile, &["20071231", "--out", "out.bin"]),
            "out.bin",
            0,
        ),
        (
            vec!["codes", "table.bin", "--state", "OH", "--out", "out.bin"],
            "out.bin",
            0,
        ),
        (
            vec!["to-ebcdic", "text.txt", "--out", "out.bin"],
            "out.bin",
            0,
        ),
        (
            vec!["to-ascii", "batch.bin", "--out", "out.bin"],
            "out.bin",
            0,
        ),
    ]
}

#[test]
fn carried_out_but_not_reported() {
    for (arguments, _, status) in writers() {
        let plain = all_files("statuses-reported");
        assert_eq!(plain.run(&arguments).status, status);
        for form in [&[][..], &["--json"]] {
            let folder = all_files("statuses-unreported");
            let full = File::options().write(true).open("/dev/full");
            let mut command = folder.command(&with(&arguments, form));
            let command = command.stdout(full.expect("it is there"));
            let ran: Ran = command.output().expect("it can be run").into();
            assert_eq!(ran.status, 4, "{arguments:?}: {ran:?}");
            assert!(ran.err.contains("don't run it again"), "{}", ran.err);
            // but for the time in the log the files are those of a run that is reported
            let files = |folder: &Folder| {
                let mut files = contents(folder);
                files.retain(|(name, _)| !name.ends_with(".log"));
                files
            };
            assert!(files(&folder) == files(&plain), "{arguments:?}");
        }
    }
}

#[test]
fn a_reader_that_goes_away_is_no_report() {
    let folder = all_files("statuses-reader");
    let (reader, writer) = std::io::pipe().expect("a pipe can be made");
    drop(reader);
    let mut command = folder.command(&["post", "two.bin", "weekly.bin"]);
    let ran: Ran = command.stdout(writer).output().expect("it runs").into();
    assert_eq!(ran.status, 4, "{ran:?}");
    assert_eq!(folder.read("two.bin"), two_rows_posted());
}

#[test]
fn busy_files_and_waiting() {
    for (arguments, file, status) in writers() {
        let folder = all_files("statuses-busy");
        let before = contents(&folder);
        let lock = File::create(folder.path(&format!("{file}.lock"))).expect("made");
        lock.lock().expect("locked");
        let ran = folder.run(&arguments);
        assert_eq!(ran.status, 5, "{arguments:?}: {ran:?}");
        assert!(ran.err.contains("another run is at work on it"));
        assert!(ran.err.contains("--wait SECONDS"), "{}", ran.err);
        let json = folder.run(&with(&arguments, &["--json"]));
        assert!(json.out.contains("\"outcome\":\"busy\",\"status\":5,"));
        if arguments[0] == "apply" {
            let start = Instant::now();
            let ran = folder.run(&with(&arguments, &["--wait", "1"]));
            assert_eq!(ran.status, 5, "{arguments:?}: {ran:?}");
            assert!(start.elapsed() >= Duration::from_secs(1));
        }
        let lock_name = format!("{file}.lock");
        let mut now = contents(&folder);
        now.retain(|(name, _)| *name != lock_name);
        assert!(now == before, "{arguments:?} changed a file");
        // the other run ends while this one waits
        let child = folder.command(&with(&arguments, &["--wait", "60"])).spawn();
        let mut child = child.expect("it can be run");
        std::thread::sleep(Duration::from_millis(100));
        assert!(child.try_wait().expect("it can be asked").is_none());
        lock.unlock().expect("unlocked");
        let ended = child.wait().expect("it ends").code();
        assert_eq!(ended, Some(status), "{arguments:?}");
    }
}

#[test]
fn the_table_of_statuses_is_in_the_help() {
    let folder = Folder::new("statuses-help");
    let table =
        "\nExit status:\n  0  carried out, nothing rejected\n  1  carried out, with rejects";
    let overall = folder.run(&["--help"]).out;
    assert!(overall.contains(table));
    for status in 0..=6 {
        assert!(overall.contains(&format!("\n  {status}  ")), "{status}");
    }
    for (arguments, _, status) in writers() {
        let help = folder.run(&[arguments[0], "--help"]).out;
        for status in [0, status, 2, 3, 4, 5] {
            assert!(help.contains(&format!("\n  {status}  ")), "{arguments:?}");
        }
        assert!(!help.contains("\n  6  "), "{arguments:?}");
    }
    assert!(folder
        .run(&["find", "--help"])
        .out
        .contains("\n  6  not found"));
}

/// MASTER and the other file in the wrong order.
#[test]
fn files_in_the_wrong_order() {
    let folder = Folder::with_master("statuses-order");
    folder.write("weekly.bin", &weekly());
    folder.write("two.bin", &two_rows("00"));
    let (mut check, mut apply) = (CHECK, APPLY);
    (check[1], check[2]) = (check[2], check[1]);
    (apply[1], apply[2]) = (apply[2], apply[1]);
    let post = ["post", "weekly.bin", "two.bin"];
    let back = ["take-back", "weekly.bin", "two.bin", "--dry-run"];
    for arguments in [&check[..], &apply, &post, &back] {
        let ran = folder.run(arguments);
        assert_eq!(ran.status, 2, "{ran:?}");
        let text = ran.err.replace("\n    ", " ");
        let words = " looks like a master, and ";
        assert!(text.contains(words), "{text}");
        assert!(text.contains("MASTER comes first"), "{text}");
    }
    folder.write("batch.txt", &ascii(&paper_batch()));
    check[1] = "batch.txt";
    let ran = folder.run(&with(&check, &["--ascii"]));
    assert_eq!(ran.status, 2, "{ran:?}");
    let words = "master.bin looks like a master: MASTER comes first";
    assert!(ran.err.contains(words), "{}", ran.err);
    // a file that is none, before one that is none
    let ran = folder.run(&["post", "weekly.bin", "batch.bin"]);
    assert!(!ran.err.contains("comes first"), "{}", ran.err);
}

/// A state that the table has no code of.
#[test]
fn states_without_codes() {
    let folder = Folder::new("statuses-codes");
    folder.write("table.bin", &[]);
    let ran = folder.run(&words("codes table.bin --state PA --out codes.bin"));
    let words = "codes: carried out, but the table has no local code of PA\n";
    assert!(ran.out.starts_with(words), "{ran:?}");
}
