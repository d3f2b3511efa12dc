//! Files that are replaced: their modes, links and folders; what lies beside them; runs at once; outputs that are not read.

mod common;

use std::fs::{self, File, Permissions};
use std::io::Read;
use std::os::unix::fs::{symlink, MetadataExt, PermissionsExt};
use std::process::Stdio;

use common::*;

fn mode(folder: &Folder, name: &str) -> u32 {
    let about = fs::metadata(folder.path(name)).expect("it is there");
    about.mode() & 0o7777
}

/// The new files, and nothing beside them.
fn applied(folder: &Folder) {
    assert_eq!(folder.read("master.bin"), paper_row());
    assert_eq!(folder.read("rejects.bin"), paper_rejects());
    for name in folder.names() {
        assert!(
            !name.ends_with(".tmp") && !name.ends_with(".lock"),
            "{name}"
        );
    }
}

/// The arguments of apply over an empty master and an old reject file.
fn forced() -> Vec<&'static str> {
    with(&APPLY, &["--new", "--force"])
}

/// A folder with the example, an empty master and an old reject file.
fn folder(name: &str) -> Folder {
    let folder = Folder::with_example(name);
    folder.write("master.bin", &[]);
    folder.write("rejects.bin", b"old");
    folder
}

#[test]
fn modes_are_kept() {
    let folder = folder("files-modes");
    for (master, rejects) in [(0o600, 0o640), (0o664, 0o604), (0o600, 0o600)] {
        folder.write("new.bin", &[]);
        fs::rename(folder.path("new.bin"), folder.path("master.bin")).expect("renamed");
        for (name, bits) in [("master.bin", master), ("rejects.bin", rejects)] {
            let permissions = Permissions::from_mode(bits);
            fs::set_permissions(folder.path(name), permissions).expect("set");
        }
        assert_eq!(folder.run(&forced()).status, 1);
        applied(&folder);
        assert_eq!(mode(&folder, "master.bin"), master);
        assert_eq!(mode(&folder, "rejects.bin"), rejects);
    }
}

#[test]
fn links_stay_links() {
    let folder = folder("files-links");
    fs::create_dir(folder.path("far")).expect("made");
    fs::rename(folder.path("master.bin"), folder.path("far/real.bin")).expect("renamed");
    symlink("real.bin", folder.path("far/link")).expect("linked");
    symlink("far/link", folder.path("master.bin")).expect("linked");
    let ran = folder.run(&forced());
    assert_eq!(ran.status, 1, "{ran:?}");
    applied(&folder);
    assert_eq!(folder.read("far/real.bin"), paper_row());
    let target = fs::read_link(folder.path("master.bin")).expect("still a link");
    assert_eq!(target.to_str(), Some("far/link"));
    assert!(fs::symlink_metadata(folder.path("far/link")).is_ok_and(|m| m.is_symlink()));
}

#[test]
fn files_in_other_folders() {
    let folder = folder("files-far");
    fs::create_dir(folder.path("far")).expect("made");
    let mut apply = forced();
    apply[8] = "far/rejects.bin";
    assert_eq!(folder.run(&apply).status, 1);
    assert_eq!(folder.read("far/rejects.bin"), paper_rejects());
    assert_eq!(folder.read("master.bin"), paper_row());
    assert_eq!(folder.read("rejects.bin"), b"old");
    let far = fs::read_dir(folder.path("far")).expect("it can be read");
    assert_eq!(far.count(), 1);
}

#[test]
fn first_runs() {
    let folder = Folder::with_example("files-new");
    folder.write("master.bin", &paper_row());
    let ran = folder.run(&with(&APPLY, &["--new"]));
    assert_eq!(ran.status, 3);
    assert!(ran.err.contains("is there already"));
    assert!(!folder.has("rejects.bin"));
    fs::remove_file(folder.path("master.bin")).expect("removed");
    let ran = folder.run(&APPLY);
    assert_eq!(ran.status, 3);
    assert!(ran
        .err
        .contains("no such file; a first run from no file takes --new"));
    // a link to no file yet
    fs::create_dir(folder.path("far")).expect("made");
    symlink("far/real.bin", folder.path("master.bin")).expect("linked");
    assert_eq!(folder.run(&APPLY).status, 3);
    assert_eq!(folder.run(&with(&APPLY, &["--new"])).status, 1);
    applied(&folder);
    assert_eq!(folder.read("far/real.bin"), paper_row());
    assert!(folder.has("far/real.bin.log") && !folder.has("master.bin.log"));
    // links that lead nowhere
    symlink("round", folder.path("round")).expect("linked");
    let mut apply = forced();
    apply[1] = "round";
    assert_eq!(folder.run(&apply).status, 3);
}

#[test]
fn empty_files_are_no_master() {
    let folder = folder("files-empty");
    folder.write("weekly.bin", &weekly());
    folder.write("contacts.bin", &contact_file());
    let reconcile = ["reconcile", "master.bin", "--state", "OH", "--date"];
    for arguments in [
        with(&APPLY, &["--force"]),
        CHECK.to_vec(),
        vec!["find", "master.bin", "OH123456789N"],
        with(&reconcile, &["20071231", "--out", "out.bin"]),
        vec!["post", "master.bin", "weekly.bin"],
        vec!["post", "master.bin", "weekly.bin", "--dry-run"],
        vec!["add-cents", "master.bin"],
        vec!["contacts", "master.bin", "contacts.bin"],
    ] {
        let ran = folder.run(&arguments);
        assert_eq!(ran.status, 3, "{arguments:?}: {ran:?}");
        let message = "master.bin: is empty: it may have been cut off";
        assert!(ran.err.contains(message), "{arguments:?}: {}", ran.err);
        assert_eq!(folder.read("master.bin"), b"");
    }
    assert_eq!(folder.run(&with(&CHECK, &["--new"])).status, 1);
    assert_eq!(folder.run(&forced()).status, 1);
    applied(&folder);
}

#[test]
fn leftovers_do_not_stop_a_run() {
    let folder = folder("files-leftovers");
    for name in ["master.bin", "rejects.bin"] {
        folder.write(&format!("{name}.tmp"), &[7; 5000]);
        folder.write(&format!("{name}.lock"), b"");
    }
    assert_eq!(folder.run(&forced()).status, 1);
    applied(&folder);
}

#[test]
fn temporary_names_that_can_not_be_used() {
    for name in ["master.bin", "rejects.bin"] {
        let folder = folder("files-temporary");
        fs::create_dir(folder.path(&format!("{name}.tmp"))).expect("made");
        let ran = folder.run(&forced());
        assert_eq!(ran.status, 3);
        assert!(
            ran.err.contains(&format!("{name}: can't be written")),
            "{}",
            ran.err
        );
        assert!(ran.err.contains("no file is changed"));
        assert_eq!(folder.read("rejects.bin"), b"old");
        assert_eq!(folder.read("master.bin"), b"");
        fs::remove_dir(folder.path(&format!("{name}.tmp"))).expect("removed");
        assert_eq!(folder.run(&forced()).status, 1);
        applied(&folder);
    }
}

#[test]
fn lock_files_of_others_stay() {
    let folder = folder("files-other-locks");
    let lock = folder.path("master.bin.lock");
    let refused = |folder: &Folder| {
        let ran = folder.run(&forced());
        assert_eq!(ran.status, 3, "{ran:?}");
        assert!(
            ran.err.contains("master.bin.lock can't be used"),
            "{}",
            ran.err
        );
        assert_eq!(folder.read("rejects.bin"), b"old");
    };
    folder.write("master.bin.lock", b"someone else's");
    refused(&folder);
    assert_eq!(folder.read("master.bin.lock"), b"someone else's");
    fs::remove_file(&lock).expect("removed");
    fs::create_dir(&lock).expect("made");
    refused(&folder);
    fs::remove_dir(&lock).expect("it is still there");
    folder.write("other.bin", b"");
    symlink("other.bin", &lock).expect("linked");
    refused(&folder);
    fs::remove_file(&lock).expect("removed");
    let made = std::process::Command::new("mkfifo").arg(&lock).status();
    assert!(made.is_ok_and(|status| status.success()));
    refused(&folder);
    fs::remove_file(&lock).expect("it is still there");
    assert_eq!(folder.run(&forced()).status, 1);
    applied(&folder);
}

#[test]
fn one_file_is_not_two() {
    let folder = folder("files-same");
    symlink("batch.bin", folder.path("link")).expect("linked");
    fs::hard_link(folder.path("locals.bin"), folder.path("hard")).expect("linked");
    folder.write("batch.bin.tmp", &paper_batch());
    let before = folder.names();
    for (master, batch, locals, rejects) in [
        ("master.bin", "batch.bin", "locals.bin", "master.bin"),
        ("master.bin", "batch.bin", "locals.bin", "batch.bin"),
        ("master.bin", "batch.bin", "locals.bin", "link"),
        ("master.bin", "batch.bin", "locals.bin", "hard"),
        ("batch.bin", "batch.bin", "locals.bin", "rejects.bin"),
        ("link", "batch.bin", "locals.bin", "rejects.bin"),
        ("master.bin", "batch.bin", "locals.bin", "./locals.bin"),
        ("master.bin", "batch.bin", "locals.bin", "master.bin.tmp"),
        ("master.bin", "batch.bin", "locals.bin", "master.bin.lock"),
        ("master.bin", "batch.bin", "locals.bin", "master.bin.log"),
        ("master.bin", "batch.bin.tmp", "locals.bin", "batch.bin"),
    ] {
        let lists = ["--locals", locals, "--year", "2007", "--rejects", rejects];
        let apply = with(&["apply", master, batch], &lists);
        let ran = folder.run(&with(&apply, &["--force"]));
        assert_eq!(ran.status, 3, "{master} {batch} {rejects}: {ran:?}");
        assert!(
            ran.err.contains("can't be written: the run "),
            "{}",
            ran.err
        );
        assert_eq!(folder.names(), before);
        assert_eq!(folder.read("batch.bin"), paper_batch());
    }
    let same = folder.run(&["to-ascii", "batch.bin", "--out", "link"]);
    assert_eq!(same.status, 3);
}

#[test]
fn a_new_file_is_not_two() {
    let folder = folder("files-new-same");
    let apply = "apply new.bin batch.bin --locals locals.bin --year 2007 --rejects new.bin --new";
    assert_eq!(folder.run(&words(apply)).status, 3);
    assert!(!folder.has("new.bin"));
}

#[test]
fn two_runs_at_once() {
    let folder = folder("files-locks");
    for name in ["master.bin", "rejects.bin"] {
        let lock = folder.path(&format!("{name}.lock"));
        let file = File::create(&lock).expect("made");
        file.lock().expect("locked");
        let ran = folder.run(&forced());
        assert_eq!(ran.status, 5);
        let words = format!("{name}: another run is at work on it");
        assert!(ran.err.contains(&words), "{}", ran.err);
        assert_eq!(folder.read("master.bin"), b"");
        assert!(lock.exists());
        // looking is not kept apart
        assert_eq!(folder.run(&with(&CHECK, &["--new"])).status, 1);
        assert_eq!(folder.run(&["show", "master", "master.bin"]).status, 0);
        // a child that another test starts may still hold the file for a moment, so it is not enough to drop it
        file.unlock().expect("unlocked");
        // the lock went with its run; its file may stay
        folder.write("master.bin", &[]);
        assert_eq!(folder.run(&forced()).status, 1);
        applied(&folder);
        folder.write("master.bin", &[]);
    }
}

#[test]
fn many_runs_at_once_leave_a_whole_master() {
    let folder = folder("files-many");
    folder.write("two.bin", &two_rows("00"));
    let none = "00000000000";
    let file = [line("987654321", "A", none, "00000000100"), total(1, 0)];
    folder.write("weekly.bin", &file.concat());
    let spawn = |_| {
        let mut command = folder.command(&["post", "two.bin", "weekly.bin", "--again"]);
        command.stdout(Stdio::null()).stderr(Stdio::null());
        command.spawn().expect("it can be run")
    };
    let children: Vec<_> = (0..24).map(spawn).collect();
    let statuses = children.into_iter().map(|mut child| {
        let status = child.wait().expect("it ends").code();
        status.expect("no signal ended it")
    });
    let done = statuses.filter(|status| match status {
        0 => true,
        5 => false,
        other => panic!("status {other}"),
    });
    // each run that was carried out, and no other, has added a dollar
    let dollars = format!("{:08}", 100 + done.count());
    let rows = [
        row("OH123456789N", "00000025", "00"),
        row("OH987654321A", &dollars, "00"),
    ];
    assert_eq!(folder.read("two.bin"), rows.concat());
    assert!(!folder.has("two.bin.lock") && !folder.has("two.bin.tmp"));
}

#[test]
fn outputs_that_are_not_read() {
    let folder = Folder::new("files-unread");
    folder.write(
        "master.bin",
        &(0..2000).flat_map(|_| paper_row()).collect::<Vec<u8>>(),
    );
    for form in [&[][..], &["--json"], &["--list"]] {
        let arguments = with(&["show", "master", "master.bin"], form);
        let mut child = folder
            .command(&arguments)
            .stdout(Stdio::piped())
            .stderr(Stdio::piped())
            .spawn()
            .expect("it can be run");
        let mut out = child.stdout.take().expect("it was asked for");
        out.read_exact(&mut [0; 10]).expect("it begins");
        drop(out);
        let ended = child.wait_with_output().expect("it ends");
        assert_eq!(ended.status.code(), Some(0), "{form:?}: {ended:?}");
        assert!(ended.stderr.is_empty(), "{form:?}: {ended:?}");
    }
}

#[test]
fn outputs_that_take_nothing() {
    let folder = folder("files-full");
    let full = || {
        let options = File::options().write(true).open("/dev/full");
        options.expect("it is there")
    };
    for form in [&[][..], &["--json"]] {
        folder.write("master.bin", &[]);
        let mut command = folder.command(&with(&forced(), form));
        let ran: Ran = command.stdout(full()).output().expect("it runs").into();
        // carried out and on the disk, which a script must be able to tell from nothing changed
        assert_eq!(ran.status, 4, "{ran:?}");
        assert!(ran.err.contains("standard output can't be written"));
        assert!(ran.err.contains("don't run it again"), "{}", ran.err);
        applied(&folder);
    }
    for arguments in [
        &["--help"][..],
        &["--version"],
        &["explain", "1"],
        &["show", "master", "master.bin"],
        &["log", "master.bin"],
        &CHECK,
    ] {
        let mut command = folder.command(arguments);
        let ran: Ran = command.stdout(full()).output().expect("it runs").into();
        assert_eq!(ran.status, 3, "{arguments:?}");
        assert!(ran.err.contains("no file is changed"), "{}", ran.err);
    }
}
