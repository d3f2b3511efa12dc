//! Outputs that are there already: nothing is overwritten by a slip.

mod common;

use std::fs;
use std::os::unix::fs::symlink;

use common::*;

fn folder(name: &str) -> Folder {
    let folder = Folder::with_master(name);
    folder.write("two.bin", &two_rows("00"));
    folder.write("old.bin", &two_rows("  "));
    folder.write("table.bin", &contact_table());
    folder.write("contacts.bin", &contact_file());
    folder.write("text.txt", b"ABC 123");
    folder.write("plain.bin", b"a file of someone");
    folder
}

/// The commands that make a file, which is their last argument.
fn makers() -> Vec<Vec<&'static str>> {
    let reconcile = ["reconcile", "two.bin", "--state", "OH", "--date"];
    let edit = ["edit", "two.bin", "OH123456789N"];
    vec![
        APPLY.to_vec(),
        with(&reconcile, &["20071231", "--out", ""]),
        vec!["codes", "table.bin", "--state", "OH", "--out", ""],
        vec!["to-ascii", "batch.bin", "--out", ""],
        vec!["to-ebcdic", "text.txt", "--out", ""],
        with(&edit, &["--amount", "7", "--out", ""]),
        vec!["records", "master.bin", "master.bin", "--out", ""],
        vec!["merge", "batch.bin", "batch.bin", "--anyway", "--out", ""],
    ]
}

fn onto(maker: &[&'static str], file: &'static str) -> Vec<&'static str> {
    with(&maker[..maker.len() - 1], &[file])
}

#[test]
fn a_file_that_is_there_takes_force() {
    for maker in makers() {
        let folder = folder("overwriting-force");
        let arguments = onto(&maker, "plain.bin");
        let ran = folder.run(&arguments);
        assert_eq!(ran.status, 3, "{arguments:?}: {ran:?}");
        assert!(ran
            .err
            .contains("plain.bin: is there already; --force replaces it"));
        assert_eq!(ran.err.lines().count(), 1, "{}", ran.err);
        assert_eq!(folder.read("plain.bin"), b"a file of someone");
        assert_eq!(folder.read("master.bin"), paper_row());
        let ran = folder.run(&with(&arguments, &["--force"]));
        assert!(ran.status < 2, "{arguments:?}: {ran:?}");
        assert_ne!(folder.read("plain.bin"), b"a file of someone");
    }
}

#[test]
fn masters_tables_and_logs_are_never_overwritten() {
    let kept = [
        ("two.bin", "looks like a master"),
        ("old.bin", "looks like a master"),
        ("table.bin", "looks like a table of contact records"),
        ("other.bin.log", "looks like a log of runs"),
    ];
    for maker in makers() {
        for (file, words) in kept {
            let folder = folder("overwriting-kept");
            folder.write("other.bin", &two_rows("  "));
            assert_eq!(folder.run(&["add-cents", "other.bin"]).status, 0);
            if maker.contains(&file) {
                continue;
            }
            // under another name, and through links
            fs::rename(folder.path(file), folder.path("x")).expect("renamed");
            symlink("x", folder.path("link")).expect("linked");
            fs::hard_link(folder.path("x"), folder.path("hard")).expect("linked");
            let before = folder.read("x");
            for name in ["x", "link", "hard"] {
                let arguments = onto(&maker, name);
                assert_eq!(folder.run(&arguments).status, 3);
                let ran = folder.run(&with(&arguments, &["--force"]));
                assert_eq!(ran.status, 3, "{arguments:?}: {ran:?}");
                assert!(ran.err.contains(words), "{arguments:?}: {}", ran.err);
                assert_eq!(folder.read("x"), before);
            }
        }
    }
}

#[test]
fn the_slip_that_destroyed_a_master() {
    let folder = folder("overwriting-slip");
    let codes = ["codes", "table.bin", "--state", "OH", "--out", "master.bin"];
    assert_eq!(folder.run(&codes).status, 3);
    assert_eq!(folder.run(&with(&codes, &["--force"])).status, 3);
    assert_eq!(folder.read("master.bin"), paper_row());
}

#[test]
fn inputs_under_another_name_are_no_outputs() {
    let folder = folder("overwriting-same");
    symlink("batch.bin", folder.path("link")).expect("linked");
    fs::hard_link(folder.path("batch.bin"), folder.path("hard")).expect("linked");
    for name in ["batch.bin", "link", "hard"] {
        let to = ["to-ascii", "batch.bin", "--out", name, "--force"];
        assert_eq!(folder.run(&to).status, 3, "{name}");
        let mut apply = APPLY;
        apply[8] = name;
        assert_eq!(folder.run(&with(&apply, &["--force"])).status, 3, "{name}");
        assert_eq!(folder.read("batch.bin"), paper_batch());
    }
    symlink("master.bin", folder.path("master-link")).expect("linked");
    let mut apply = APPLY;
    apply[8] = "master-link";
    assert_eq!(folder.run(&with(&apply, &["--force"])).status, 3);
    assert_eq!(folder.read("master.bin"), paper_row());
}

#[test]
fn a_file_that_comes_while_the_run_works() {
    let folder = folder("overwriting-late");
    let made = std::process::Command::new("mkfifo")
        .arg(folder.path("pipe"))
        .status();
    assert!(made.is_ok_and(|status| status.success()));
    let mut command = folder.command(&["to-ascii", "pipe", "--out", "out.txt"]);
    let child = command.stderr(std::process::Stdio::piped()).spawn();
    let child = child.expect("it can be run");
    let feed = fs::OpenOptions::new().write(true).open(folder.path("pipe"));
    let feed = feed.expect("it is read");
    while !folder.has("out.txt.tmp") {
        std::thread::sleep(std::time::Duration::from_millis(5));
    }
    folder.write("out.txt", b"someone else's");
    drop(feed);
    let ran: Ran = child.wait_with_output().expect("it ends").into();
    assert_eq!(ran.status, 3, "{ran:?}");
    assert_eq!(folder.read("out.txt"), b"someone else's");
    assert!(!folder.has("out.txt.tmp") && !folder.has("out.txt.lock"));
}
