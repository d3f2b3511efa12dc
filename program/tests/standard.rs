//! `-`: standard input and standard output in the place of files.

mod common;

use std::io::Write;
use std::process::Stdio;

use common::*;

fn folder(name: &str) -> Folder {
    let folder = Folder::with_master(name);
    folder.write("two.bin", &two_rows("00"));
    folder.write("weekly.bin", &weekly());
    folder.write("contacts.bin", &contact_file());
    folder.write("table.bin", &contact_table());
    folder.write("left.bin", &second_rows());
    folder.write("journal.bin", &second_journal());
    folder.write("text.txt", b"ABC 123");
    // other batches, each with a case ID of its own
    for (name, digit) in [("second.bin", "2"), ("third.bin", "3")] {
        let mut batch = paper_batch();
        batch[14..15].copy_from_slice(&ebcdic(digit));
        folder.write(name, &batch);
    }
    folder
}

/// A run over bytes on standard input: its status, the bytes that it prints and what it says on standard error.
fn run(folder: &Folder, arguments: &[&str], input: &[u8]) -> (i32, Vec<u8>, String) {
    let mut child = folder
        .command(arguments)
        .stdin(Stdio::piped())
        .stdout(Stdio::piped())
        .stderr(Stdio::piped())
        .spawn()
        .expect("it can be run");
    // a run that is refused may not read it
    let _ = child.stdin.take().expect("asked for").write_all(input);
    let output = child.wait_with_output().expect("it ends");
    let error = String::from_utf8(output.stderr).expect("it is text");
    let status = output.status.code().expect("no signal ended it");
    (status, output.stdout, error)
}

#[test]
fn every_input_may_be_standard_input() {
    let records = ["records", "master.bin", "master.bin"];
    let merge = ["merge", "batch.bin", "second.bin", "third.bin"];
    for (arguments, place) in [
        (APPLY.to_vec(), 2),
        (APPLY.to_vec(), 4),
        (CHECK.to_vec(), 2),
        (CHECK.to_vec(), 4),
        (vec!["post", "two.bin", "weekly.bin"], 2),
        (vec!["take-back", "left.bin", "journal.bin"], 2),
        (vec!["contacts", "table.bin", "contacts.bin"], 2),
        (
            vec!["codes", "table.bin", "--state", "OH", "--out", "out.bin"],
            1,
        ),
        (vec!["to-ebcdic", "text.txt", "--out", "out.bin"], 1),
        (vec!["to-ascii", "batch.bin", "--out", "out.bin"], 1),
        (vec!["show", "batch", "batch.bin"], 2),
        (vec!["show", "contacts", "table.bin"], 2),
        (with(&records, &["--out", "out.bin"]), 1),
        (with(&records, &["--out", "out.bin"]), 2),
        (with(&merge, &["--out", "out.bin"]), 1),
        (with(&merge, &["--out", "out.bin"]), 3),
    ] {
        let (plain, folder) = (folder("standard-file"), folder("standard-input"));
        let wanted = plain.run(&arguments);
        assert!(wanted.status < 2, "{arguments:?}: {wanted:?}");
        let mut dashed = arguments.clone();
        dashed[place] = "-";
        let (status, out, error) = run(&folder, &dashed, &folder.read(arguments[place]));
        assert_eq!(status, wanted.status, "{dashed:?}: {error}");
        assert_eq!(out, wanted.out.as_bytes(), "{dashed:?}");
        for name in plain.names().iter().filter(|name| !name.ends_with(".log")) {
            assert_eq!(plain.read(name), folder.read(name), "{dashed:?}: {name}");
        }
    }
}

#[test]
fn every_file_made_may_be_standard_output() {
    let edit = ["edit", "master.bin", "OH123456789N"];
    let reconcile = ["reconcile", "two.bin", "--state", "OH", "--date"];
    for arguments in [
        APPLY.to_vec(),
        with(&reconcile, &["20071231", "--out", "out.bin"]),
        vec!["pages", "two.bin", "--out", "out.bin"],
        vec!["pages", "two.bin", "--text", "--out", "out.bin"],
        vec!["codes", "table.bin", "--state", "OH", "--out", "out.bin"],
        vec!["to-ebcdic", "text.txt", "--out", "out.bin"],
        vec!["to-ascii", "batch.bin", "--out", "out.bin"],
        with(&edit, &["--amount", "7", "--out", "out.bin"]),
        vec![
            "merge",
            "batch.bin",
            "batch.bin",
            "--anyway",
            "--out",
            "out.bin",
        ],
    ] {
        let (plain, folder) = (folder("standard-made"), folder("standard-output"));
        let wanted = plain.run(&arguments);
        let file = *arguments.last().expect("it has arguments");
        let mut dashed = arguments.clone();
        *dashed.last_mut().expect("it has arguments") = "-";
        let (status, out, error) = run(&folder, &dashed, b"");
        assert_eq!(status, wanted.status, "{dashed:?}: {error}");
        assert_eq!(out, plain.read(file), "{dashed:?}");
        let report = wanted.out.replace(file, "standard output");
        assert_eq!(error, report, "{dashed:?}");
        assert!(!folder.has("-"));
        let json = with(&dashed, &["--json", "--again"]);
        let json = &json[..json.len() - usize::from(arguments[0] != "apply")];
        let (_, out, error) = run(&folder, json, b"");
        assert!(error.starts_with("{\"command\":"), "{error}");
        assert!(!out.starts_with(b"{"), "{dashed:?}");
    }
}

#[test]
fn a_file_that_standard_output_does_not_take() {
    let folder = folder("standard-full");
    let mut apply = APPLY;
    apply[8] = "-";
    let full = std::fs::File::options().write(true).open("/dev/full");
    let mut command = folder.command(&apply);
    let command = command.stdout(full.expect("it is there"));
    let ran: Ran = command.output().expect("it can be run").into();
    // the reject file goes before the master, so nothing is changed
    assert_eq!(ran.status, 3, "{ran:?}");
    assert!(ran.err.contains("no file is changed"), "{}", ran.err);
    assert_eq!(folder.read("master.bin"), paper_row());
    assert!(!folder.has("master.bin.log"));
}

#[test]
fn a_refusal_prints_no_part_of_a_file() {
    let folder = folder("standard-refused");
    let input = [&[b'A'; 200_000][..], b"a"].concat();
    let (status, out, error) = run(&folder, &["to-ebcdic", "-", "--out", "-"], &input);
    assert_eq!((status, out.len()), (2, 0), "{error}");
    assert!(
        error.contains("standard input: byte 200000 is hexadecimal 61"),
        "{error}"
    );
}

#[test]
fn masters_and_two_inputs_are_no_standard_input() {
    let folder = folder("standard-wrong");
    let reconcile = ["reconcile", "-", "--state", "OH", "--date", "20071231"];
    for arguments in [
        with(&["apply", "-", "batch.bin"], &APPLY[3..]),
        with(&["apply", "master.bin", "-", "--locals", "-"], &APPLY[5..]),
        with(&["check", "master.bin", "-", "--locals", "-"], &CHECK[5..]),
        with(&["check", "-", "batch.bin"], &CHECK[3..]),
        vec!["find", "-", "OH123456789N"],
        vec!["find", "-", "-"],
        with(&reconcile, &["--out", "out.bin"]),
        vec!["post", "-", "weekly.bin"],
        vec!["add-cents", "-"],
        vec!["pages", "-", "--out", "out.bin"],
        vec!["take-back", "-", "journal.bin"],
        with(&APPLY, &["--journal", "-"]),
        vec!["log", "-"],
        vec!["contacts", "-", "contacts.bin", "--new"],
        vec!["show", "master", "-"],
    ] {
        let (status, out, error) = run(&folder, &arguments, &two_rows("00"));
        assert_eq!(status, 3, "{arguments:?}: {error}");
        assert!(error.contains("-: it is no file") || error.contains("- is standard input"));
        assert_eq!(out, b"");
    }
    // a file of that name
    folder.write("-", &weekly());
    assert_eq!(folder.run(&["post", "two.bin", "./-"]).status, 1);
}

#[test]
fn every_key_of_standard_input_is_answered() {
    let folder = folder("standard-keys");
    let find = ["find", "two.bin", "-"];
    let ask = |input: &str| run(&folder, &find, input.as_bytes());
    let (status, out, _) = ask("OH987654321A\nOH123456789N\r\n");
    let out = String::from_utf8(out).expect("it is text");
    assert_eq!(status, 0, "{out}");
    let found = out.find("OH*****4321A").zip(out.find("OH*****6789N"));
    assert!(found.is_some_and(|(first, second)| first < second), "{out}");
    let (status, out, _) = ask("OH987654321A\n\nOH900000001N\nOH123456789N");
    let out = String::from_utf8(out).expect("it is text");
    assert_eq!(status, 6, "{out}");
    assert!(
        out.contains("find: not found\n  key      OH*****0001N\n"),
        "{out}"
    );
    assert_eq!(out.matches("find: found\n").count(), 2);
    let (status, out, _) = ask("OH900000001N\nwhat\nOH123456789N\n");
    let out = String::from_utf8(out).expect("it is text");
    assert_eq!(status, 2, "{out}");
    assert!(
        out.contains("refused 14") && out.contains("  line     2\n"),
        "{out}"
    );
    assert!(out.contains("OH*****6789N"), "{out}");
}

#[test]
fn keys_of_standard_input_as_json() {
    let folder = folder("standard-keys-json");
    let json = ["find", "two.bin", "-", "--json"];
    let (status, out, error) = run(&folder, &json, b"OH900000001N\nOH123456789N\n");
    let out = String::from_utf8(out).expect("it is text");
    assert_eq!((status, error.as_str()), (6, ""));
    assert!(
        out.contains("\"keys\":2,\"found\":1,\"not_found\":1,\"refused\":0"),
        "{out}"
    );
    // the file of --keys too
    let (same, out_of_file, _) = run(
        &folder,
        &["find", "two.bin", "--keys", "-", "--json"],
        b"OH900000001N\nOH123456789N\n",
    );
    assert_eq!((same, out_of_file), (status, out.clone().into_bytes()));
    assert!(out.contains(
        "{\"line\":2,\"answer\":\"found\",\"status\":0,\"key\":\"OH*****6789N\",\"row\":1,"
    ));
}
