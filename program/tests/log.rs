//! The log beside a master: what it holds, what it keeps from being done twice, and what it says of runs that were cut off.

mod common;

use std::fs;
use std::os::unix::process::ExitStatusExt;
use std::process::{Command, Stdio};
use std::time::Instant;

use common::*;

const POST: [&str; 3] = ["post", "two.bin", "weekly.bin"];

fn folder(name: &str) -> Folder {
    let folder = Folder::with_master(name);
    folder.write("two.bin", &two_rows("00"));
    folder.write("weekly.bin", &weekly());
    folder
}

/// What became of the runs by `log`, in their order.
fn outcomes(folder: &Folder, master: &str) -> Vec<String> {
    let ran = folder.run(&["log", master]);
    assert_eq!(ran.status, 0, "{ran:?}");
    let lines = ran.out.lines().filter(|line| line.starts_with("20"));
    let outcome = |line: &str| line.rsplit(": ").next().expect("a part").to_string();
    lines.map(outcome).collect()
}

fn log_text(folder: &Folder, name: &str) -> String {
    String::from_utf8(folder.read(name)).expect("a log is text")
}

/// The fingerprint of a file by the system's own program; none where there is none.
fn sha256sum(folder: &Folder, name: &str) -> Option<String> {
    let output = Command::new("sha256sum").arg(folder.path(name)).output();
    let text = String::from_utf8(output.ok()?.stdout).ok()?;
    Some(text.split(' ').next()?.to_string())
}

#[test]
fn a_line_for_each_run() {
    let folder = folder("log-lines");
    folder.write("old.bin", &two_rows("  "));
    assert_eq!(folder.run(&["add-cents", "old.bin"]).status, 0);
    let before = sha256sum(&folder, "old.bin");
    assert_eq!(folder.run(&["post", "old.bin", "weekly.bin"]).status, 1);
    let text = log_text(&folder, "old.bin.log");
    let lines: Vec<&str> = text.lines().collect();
    let [first, second] = lines[..] else {
        panic!("two lines: {text}");
    };
    assert!(first.contains("\"command\":\"add-cents\",\"status\":0,\"inputs\":[]"));
    assert!(second.contains("\"command\":\"post\",\"status\":1,\"inputs\":[{\"kind\":\"collections\",\"name\":\"weekly.bin\""));
    let counts = "\"counts\":{\"rows\":2,\"lines\":4,\"posted\":3,\"not_posted\":1,\"cases_closed\":1,\"cases_with_excess\":1}}";
    assert!(second.ends_with(counts), "{second}");
    assert!(second.contains(&format!("\"version\":\"{}\"", fantanolive::VERSION)));
    let prints = [
        ("master_before", before),
        ("master_after", sha256sum(&folder, "old.bin")),
        ("sha256", sha256sum(&folder, "weekly.bin")),
    ];
    for (member, print) in prints {
        let Some(print) = print else {
            skipped("there is no sha256sum");
            return;
        };
        assert!(
            second.contains(&format!("\"{member}\":\"{print}\"")),
            "{member}"
        );
    }
}

#[test]
fn no_ssn_in_a_log() {
    let folder = folder("log-ssn");
    folder.write("123456789.bin", &weekly());
    folder.write("123-45-6789", &paper_batch());
    assert_eq!(folder.run(&["post", "two.bin", "123456789.bin"]).status, 1);
    let mut apply = APPLY;
    apply[2] = "123-45-6789";
    assert_eq!(folder.run(&apply).status, 1);
    for name in ["two.bin", "master.bin"] {
        let text = log_text(&folder, &format!("{name}.log"));
        assert!(
            !text.contains("123456789") && !text.contains("123-45"),
            "{text}"
        );
        let ran = folder.run(&["log", name]);
        assert!(ran.out.contains("6789") && !ran.out.contains("12345"));
    }
}

#[test]
fn nothing_is_done_twice() {
    let folder = folder("log-twice");
    assert_eq!(folder.run(&POST).status, 1);
    let before = log_text(&folder, "two.bin.log");
    for again in [&POST[..], &["post", "two.bin", "copy.txt", "--ascii"]] {
        // a copy, and the same in ASCII
        folder.write("copy.txt", &ascii(&weekly()));
        let ran = folder.run(again);
        assert_eq!(ran.status, 3, "{ran:?}");
        assert!(
            ran.err.contains("was posted to two.bin before, at 20"),
            "{}",
            ran.err
        );
        assert!(ran.err.contains("--again"), "{}", ran.err);
        assert_eq!(ran.err.lines().count(), 1);
        assert_eq!(folder.read("two.bin"), two_rows_posted());
        assert_eq!(log_text(&folder, "two.bin.log"), before);
    }
    let dry = folder.run(&with(&POST, &["--dry-run"]));
    assert!(dry.out.contains("posted before"), "{}", dry.out);
    assert_eq!(folder.run(&with(&POST, &["--again"])).status, 1);
    assert_eq!(log_text(&folder, "two.bin.log").lines().count(), 2);
    // a batch
    assert_eq!(folder.run(&APPLY).status, 1);
    let ran = folder.run(&with(&APPLY, &["--force"]));
    assert_eq!(ran.status, 3);
    assert!(
        ran.err.contains("was applied to master.bin before"),
        "{}",
        ran.err
    );
    let check = folder.run(&CHECK);
    assert!(check.out.contains("applied before"), "{}", check.out);
    assert_eq!(folder.run(&with(&APPLY, &["--force", "--again"])).status, 1);
    // another master has not had it
    folder.write("other.bin", &two_rows("00"));
    assert_eq!(folder.run(&["post", "other.bin", "weekly.bin"]).status, 1);
}

/// The verdict says that a batch was applied, in every form, and with a status that is not 0.
#[test]
fn checks_of_what_was_done() {
    let folder = folder("log-checked");
    let add = [(1, "OH"), (6, "900000001"), (30, "DOE"), (50, "JANE")];
    let add = record(&[&add[..], &[(65, "00000030"), (73, "AN")]].concat());
    folder.write("batch.bin", &[add, control(0, 1, 0, 30)].concat());
    let check = |more: &[&str]| folder.run(&with(&CHECK, more));
    assert_eq!(check(&["--quiet"]).out, "check: ready to send\n");
    assert_eq!(folder.run(&APPLY).status, 0);
    let start = "check: not ready: it was applied to master.bin before, at 20";
    let quiet = check(&["--quiet"]);
    assert_eq!(quiet.status, 3);
    assert!(quiet.out.starts_with(start), "{}", quiet.out);
    let page = check(&["--html", "page.html"]);
    assert_eq!(page.status, 3);
    let page = String::from_utf8(folder.read("page.html")).expect("it is text");
    assert!(page.contains(&format!("<h1 class=\"bad\">{start}")));
    let json = check(&["--json"]).out;
    let members = "\"outcome\":\"would be stopped\",\"status\":3,\"verdict\":\"not ready: it was applied to master.bin before, at 20";
    assert!(json.contains(members), "{json}");
    // with --again as apply takes it: now the case is there, and A raises it
    let again = check(&["--again", "--quiet"]);
    assert!(!again.out.contains("applied"), "{}", again.out);
    assert_ne!(again.status, 3);
    // what is to be fixed is told too
    folder.write("batch.bin", &paper_batch());
    assert_eq!(folder.run(&with(&APPLY, &["--force"])).status, 1);
    let both = check(&["--quiet"]);
    assert_eq!(both.status, 3);
    assert!(both.out.ends_with("Z; 1 record to fix\n"), "{}", both.out);
}

#[test]
fn dry_runs_of_what_was_done() {
    let folder = folder("log-posted");
    assert_eq!(folder.run(&POST).status, 1);
    let dry = folder.run(&with(&POST, &["--dry-run", "--quiet"]));
    assert_eq!(dry.status, 3, "{dry:?}");
    let start = "post: would be stopped: it was posted to two.bin before, at 20";
    assert!(dry.out.starts_with(start), "{}", dry.out);
    assert!(dry.out.ends_with("; nothing is written\n"), "{}", dry.out);
    let again = folder.run(&with(&POST, &["--dry-run", "--again", "--quiet"]));
    assert_eq!(again.status, 1, "{again:?}");
}

#[test]
fn files_that_are_no_masters() {
    let folder = folder("log-no-master");
    for name in ["weekly.bin", "batch.bin"] {
        let ran = folder.run(&["log", name]);
        assert_eq!(ran.status, 3, "{ran:?}");
        let words = "is no master, and has no log beside it";
        assert!(ran.err.contains(words), "{}", ran.err);
    }
}

#[test]
fn a_copy_that_is_put_back_may_be_posted_to() {
    let folder = folder("log-back");
    assert_eq!(folder.run(&POST).status, 1);
    folder.write("two.bin", &two_rows("00"));
    assert_eq!(outcomes(&folder, "two.bin"), ["not carried out"]);
    assert_eq!(folder.run(&POST).status, 1);
    assert_eq!(
        outcomes(&folder, "two.bin"),
        ["not carried out", "carried out"]
    );
    // changed by others: what was posted may be in it
    let mut changed = two_rows_posted();
    changed[35] = 0xC1;
    folder.write("two.bin", &changed);
    assert_eq!(outcomes(&folder, "two.bin"), ["unknown", "unknown"]);
    assert_eq!(folder.run(&POST).status, 3);
}

#[test]
fn dry_runs_write_nothing() {
    let folder = folder("log-dry");
    let names = folder.names();
    let dry = folder.run(&with(&POST, &["--dry-run"]));
    assert_eq!(dry.status, 1);
    assert!(dry
        .out
        .starts_with("post: would be carried out, 1 line not posted; nothing is written\n"));
    assert_eq!(folder.read("two.bin"), two_rows("00"));
    assert_eq!(folder.names(), names);
    let reported = folder.run(&with(&POST, &["--dry-run", "--csv", "list.csv"]));
    assert!(reported.out.starts_with(
        "post: would be carried out, 1 line not posted; only the report is written\n"
    ));
    let wet = folder.run(&POST);
    let behind = |text: &str| text.split("\n\n").nth(1).expect("a list").to_string();
    assert_eq!(behind(&dry.out), behind(&wet.out));
}

#[test]
fn logs_that_are_none() {
    let folder = folder("log-none");
    for text in ["someone's notes\n", "{\"time\":\"x\"}\n", "\u{1}", "{}"] {
        folder.write("two.bin.log", text.as_bytes());
        for arguments in [&POST[..], &["log", "two.bin"]] {
            let ran = folder.run(arguments);
            assert_eq!(ran.status, 3, "{ran:?}");
            assert!(
                ran.err.contains("two.bin.log: can't be read"),
                "{}",
                ran.err
            );
        }
        assert_eq!(folder.read("two.bin"), two_rows("00"));
        assert_eq!(folder.read("two.bin.log"), text.as_bytes());
    }
    fs::remove_file(folder.path("two.bin.log")).expect("removed");
    fs::create_dir(folder.path("two.bin.log")).expect("made");
    assert_eq!(folder.run(&POST).status, 3);
    assert_eq!(folder.read("two.bin"), two_rows("00"));
}

#[test]
fn empty_logs_say_so() {
    let folder = folder("log-empty");
    let ran = folder.run(&["log", "two.bin"]);
    assert_eq!(ran.status, 0);
    assert!(
        ran.out.contains("  runs                        0\n"),
        "{}",
        ran.out
    );
    assert!(ran.out.contains("no run is logged"), "{}", ran.out);
}

/// Many rows, and a file with lines for some: they take longer, so that kills come at every stage.
fn many_rows_and_lines() -> (Vec<u8>, Vec<u8>) {
    let rows = (0..8_000)
        .flat_map(|n| row(&format!("OH{:09}N", 900_000_001 + n), "00000100", "00"))
        .collect();
    let none = "00000000000";
    let lines = (0..2_000).flat_map(|n| {
        let ssn = format!("{:09}", 900_000_001 + n);
        line(&ssn, "N", "00000000100", none)
    });
    (rows, lines.chain(total(0, 2_000)).collect())
}

/// A run that is killed somewhere: by the log it was carried out exactly where the master is the new one.
#[test]
fn killed_runs_are_told() {
    let folder = folder("log-killed");
    let (rows, file) = many_rows_and_lines();
    folder.write("weekly.bin", &file);
    folder.write("two.bin", &rows);
    let start = Instant::now();
    assert_eq!(folder.run(&POST).status, 0);
    let whole = start.elapsed();
    let mut seen = [0; 2];
    for number in 0..24 {
        folder.write("two.bin", &rows);
        let _ = fs::remove_file(folder.path("two.bin.log"));
        let mut command = folder.command(&POST);
        command.stdout(Stdio::null()).stderr(Stdio::null());
        let mut child = command.spawn().expect("it can be run");
        std::thread::sleep(whole * number / 15);
        let _ = child.kill();
        let ended = child.wait().expect("it ends");
        let master = folder.read("two.bin");
        let is_new = master != rows;
        assert_eq!(master.len(), rows.len());
        let outcomes = match folder.has("two.bin.log") {
            true => outcomes(&folder, "two.bin"),
            false => Vec::new(),
        };
        let wanted = [
            &[][..],
            &["not carried out".to_string()],
            &["carried out".to_string()],
        ];
        let wanted = if is_new { &wanted[2..] } else { &wanted[..2] };
        assert!(wanted.contains(&&outcomes[..]), "{number}: {outcomes:?}");
        assert!(is_new || ended.signal().is_some(), "{number}: {ended:?}");
        seen[usize::from(is_new)] += 1;
        // what was not carried out is done by the next run, what was is not done again
        let next = folder.run(&POST).status;
        assert_eq!(next, if is_new { 3 } else { 0 }, "{number}");
    }
    assert!(seen[0] > 0 && seen[1] > 0, "{seen:?}");
}
