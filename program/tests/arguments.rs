//! Command lines: help, version, unknown and missing arguments.

mod common;

use std::ffi::OsStr;
use std::fs::File;
use std::os::unix::ffi::OsStrExt;

use common::*;

const COMMANDS: [&str; 24] = [
    "apply",
    "check",
    "build",
    "control",
    "export",
    "take-back",
    "split",
    "merge",
    "find",
    "edit",
    "records",
    "reconcile",
    "compare",
    "pages",
    "post",
    "add-cents",
    "log",
    "contacts",
    "codes",
    "to-ebcdic",
    "to-ascii",
    "show",
    "agree",
    "explain",
];

/// A run that ends with 3 and a message on standard error, with nothing on standard output.
fn wrong(arguments: &[&str], message: &str, help: &str) {
    let ran = Folder::with_master("arguments-wrong").run(arguments);
    assert_eq!(ran.status, 3, "{arguments:?}: {ran:?}");
    assert_eq!(ran.out, "");
    assert!(ran.err.contains(message), "{arguments:?}: {}", ran.err);
    assert!(ran.err.contains(help), "{arguments:?}: {}", ran.err);
}

#[test]
fn commands_by_name() {
    wrong(&[], "no command is given", "See `fantanolive --help`.");
    wrong(
        &["aply"],
        "did you mean 'apply'?",
        "See `fantanolive --help`.",
    );
    wrong(
        &["xyzzy"],
        "unknown command 'xyzzy'\n",
        "See `fantanolive --help`.",
    );
    wrong(&["--jason"], "unknown command", "See `fantanolive --help`.");
    wrong(
        &["help", "fnd"],
        "did you mean 'find'?",
        "See `fantanolive --help`.",
    );
}

#[test]
fn arguments_of_apply() {
    let of_apply = "See `fantanolive apply --help`.";
    for (arguments, message) in [
        ("apply", "MASTER is missing"),
        ("apply m", "BATCH is missing"),
        ("apply m b", "--locals FILE is missing"),
        ("apply m b c", "'c' is one argument too many"),
        ("apply m b --year", "--year wants a value: --year YYYY"),
        (
            "apply m b --locals --lines",
            "--locals wants a file's name, and --lines is an option",
        ),
        (
            "apply m b --locals --mode=640",
            "--locals wants a file's name, and --mode is an option",
        ),
        (
            "apply m b --year --all",
            "--year wants a value, --year YYYY, and --all is an option",
        ),
        (
            "apply m b --locals --codes",
            "one that begins with -- is given as --locals=--codes",
        ),
    ] {
        wrong(&words(arguments), message, of_apply);
    }
    wrong(&APPLY[..7], "--rejects FILE is missing", of_apply);
    for (more, message) in [
        ("--year 2008", "--year is given twice"),
        ("--lokals x", "did you mean '--locals'?"),
        ("--json=1", "--json takes no value"),
    ] {
        wrong(&with(&APPLY, &words(more)), message, of_apply);
    }
}

#[test]
fn arguments_of_find() {
    for (arguments, message) in [
        ("find m k -x", "unknown option '-x'"),
        ("find", "MASTER is missing"),
        ("find m", "KEY is missing, or --keys FILE"),
        ("find m k --keys f", "give one alone"),
        ("find m k -", "- is standard input"),
        ("find m - k", "- is standard input"),
        ("find m - --keys -", "- is standard input"),
    ] {
        wrong(&words(arguments), message, "See `fantanolive find --help`.");
    }
}

#[test]
fn years() {
    let mut year = APPLY;
    for text in ["", "twenty", "-5", "20 07", "99999999999999999999"] {
        year[6] = text;
        wrong(&year, "--year wants a number", "apply --help");
    }
}

#[test]
fn kinds_and_numbers_to_explain() {
    for (arguments, message, help) in [
        (
            "show batch batch.bin --from 0",
            "--from counts from 1",
            "show --help",
        ),
        (
            "show batch batch.bin --count x",
            "--count wants a number",
            "show --help",
        ),
        (
            "show batches batch.bin",
            "did you mean 'batch'?",
            "show --help",
        ),
        (
            "show xyzzy x",
            "'xyzzy' is no kind of file: master",
            "show --help",
        ),
        (
            "show master master.bin --ascii",
            "always in EBCDIC",
            "show --help",
        ),
        ("explain 24 --code", "no such number: 24", "explain --help"),
        (
            "explain 51 --refusal",
            "no such number: 51; refusals are 1 to ",
            "explain --help",
        ),
    ] {
        wrong(&words(arguments), message, help);
    }
    for number in ["0", "99", "50", "53", "4294967296", "x", ""] {
        wrong(&["explain", number], "", "explain --help");
    }
}

#[test]
fn help_of_every_command() {
    let folder = Folder::new("arguments-help");
    let overall = folder.run(&["--help"]);
    assert_eq!((overall.status, overall.err.as_str()), (0, ""));
    for command in COMMANDS {
        assert!(
            overall.out.contains(&format!("\n  {command} ")),
            "{command}"
        );
        let help = folder.run(&[command, "--help"]);
        assert_eq!((help.status, help.err.as_str()), (0, ""), "{command}");
        let start = format!("usage: fantanolive {command} ");
        assert!(help.out.starts_with(&start), "{command}");
        assert!(help.out.contains("\nExit status:\n  0  "), "{command}");
        assert!(
            help.out.lines().all(|line| line.chars().count() <= 80),
            "{command}"
        );
        assert_eq!(folder.run(&["help", command]).out, help.out);
        assert_eq!(folder.run(&[command, "x", "-h", "--bad"]).out, help.out);
    }
    assert_eq!(folder.run(&["help"]).out, overall.out);
    assert_eq!(folder.run(&["-h"]).out, overall.out);
    assert!(overall.out.lines().all(|line| line.chars().count() <= 80));
}

#[test]
fn version() {
    let ran = Folder::new("arguments-version").run(&["--version"]);
    assert_eq!(ran.out, format!("fantanolive {}\n", fantanolive::VERSION));
    assert_eq!(ran.status, 0);
}

#[test]
fn forms_of_options() {
    let folder = Folder::with_master("arguments-forms");
    let joined = ["--locals=locals.bin", "check", "--year=2007"];
    assert_eq!(folder.run(&joined).status, 3);
    let joined = [
        "check",
        "--year=2007",
        "master.bin",
        "--locals=locals.bin",
        "--",
        "batch.bin",
    ];
    assert_eq!(folder.run(&joined).status, 1);
    folder.write("--json", &paper_batch());
    let dashes = ["show", "batch", "--", "--json"];
    assert_eq!(folder.run(&dashes).status, 0);
}

#[test]
fn values_that_are_not_utf8() {
    let folder = Folder::with_master("arguments-bytes");
    let mut command = folder.command(&["check", "master.bin", "batch.bin", "--year=2007"]);
    let locals = OsStr::from_bytes(b"--locals=\xFF.bin");
    let ran: Ran = command.arg(locals).output().expect("it can be run").into();
    assert_eq!(ran.status, 3);
    let message = "check: \u{FFFD}.bin: can't be read: no such file";
    assert!(ran.err.contains(message), "{}", ran.err);
}

#[test]
fn a_report_into_a_file_that_is_written() {
    let folder = Folder::with_master("arguments-report");
    let file = File::create(folder.path("report.bin")).expect("it can be made");
    let mut arguments = APPLY;
    arguments[8] = "report.bin";
    let mut command = folder.command(&with(&arguments, &["--force"]));
    let ran: Ran = command.stdout(file).output().expect("it can be run").into();
    assert_eq!(ran.status, 3, "{ran:?}");
    let message = "report.bin: can't be written: the report is printed to it";
    assert!(ran.err.contains(message), "{}", ran.err);
    assert_eq!(folder.read("master.bin"), paper_row());
}

#[test]
fn every_refusal_and_code_is_explained() {
    let folder = Folder::new("arguments-explain");
    for number in fantanolive::Refusal::ALL.map(|refusal| refusal.number()) {
        let ran = folder.run(&["explain", &number.to_string(), "--refusal"]);
        assert!(ran.out.starts_with(&format!("refusal {number}: ")));
        assert!(!ran.out.contains("\ncode "));
        assert_eq!(ran.status, 0);
    }
    for number in (1..=18).chain([51, 52]) {
        let ran = folder.run(&["explain", &format!("{number:02}"), "--code"]);
        assert!(ran.out.starts_with(&format!("code {number}: ")));
        assert_eq!(ran.status, 0);
    }
}
