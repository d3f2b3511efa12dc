//! Who may read and write a file: what a replaced file keeps, and what a new one gets.

mod common;

use std::ffi::{c_char, c_int, c_void, CString};
use std::fs::{self, Permissions};
use std::os::unix::ffi::OsStrExt;
use std::os::unix::fs::{chown, MetadataExt, PermissionsExt};
use std::os::unix::process::CommandExt;
use std::path::Path;

use common::*;

extern "C" {
    fn setxattr(
        path: *const c_char,
        name: *const c_char,
        value: *const c_void,
        size: usize,
        flags: c_int,
    ) -> c_int;
    fn getxattr(path: *const c_char, name: *const c_char, value: *mut c_void, size: usize)
        -> isize;
}

fn c_text(bytes: &[u8]) -> CString {
    CString::new(bytes).expect("it has no 0")
}

/// Whether the system took an attribute.
fn set(path: &Path, name: &str, value: &[u8]) -> bool {
    let (path, name) = (c_text(path.as_os_str().as_bytes()), c_text(name.as_bytes()));
    // SAFETY: both names end with 0; the pointer and the length are those of one slice.
    unsafe {
        setxattr(
            path.as_ptr(),
            name.as_ptr(),
            value.as_ptr().cast(),
            value.len(),
            0,
        ) == 0
    }
}

fn get(path: &Path, name: &str) -> Option<Vec<u8>> {
    let (path, name) = (c_text(path.as_os_str().as_bytes()), c_text(name.as_bytes()));
    let mut value = vec![0; 4096];
    let room = value.len();
    // SAFETY: both names end with 0; the pointer and the length are those of one list.
    let length = unsafe {
        getxattr(
            path.as_ptr(),
            name.as_ptr(),
            value.as_mut_ptr().cast(),
            room,
        )
    };
    value.truncate(usize::try_from(length).ok()?);
    Some(value)
}

const ACL: &str = "system.posix_acl_access";

/// An ACL in the form of the system: owner, user 4711 to read, group, mask and others.
fn acl() -> Vec<u8> {
    let none = u32::MAX;
    let entries: [(u16, u16, u32); 5] = [
        (0x01, 6, none),
        (0x02, 4, 4711),
        (0x04, 0, none),
        (0x10, 4, none),
        (0x20, 0, none),
    ];
    let mut bytes = 2u32.to_le_bytes().to_vec();
    for (tag, rights, id) in entries {
        bytes.extend(tag.to_le_bytes());
        bytes.extend(rights.to_le_bytes());
        bytes.extend(id.to_le_bytes());
    }
    bytes
}

fn mode(folder: &Folder, name: &str) -> u32 {
    let about = fs::metadata(folder.path(name)).unwrap_or_else(|error| panic!("{name}: {error}"));
    about.mode() & 0o7777
}

fn set_mode(folder: &Folder, name: &str, mode: u32) {
    let permissions = Permissions::from_mode(mode);
    fs::set_permissions(folder.path(name), permissions).expect("the mode is set");
}

/// A folder with a master and a file to be posted to it.
fn folder(name: &str) -> Folder {
    let folder = Folder::new(name);
    folder.write("two.bin", &two_rows("00"));
    folder.write("weekly.bin", &weekly());
    folder
}

const POST: [&str; 3] = ["post", "two.bin", "weekly.bin"];

#[test]
fn attributes_and_acls_are_kept() {
    for (name, value) in [
        (ACL, acl()),
        ("user.office", b"Franklin".to_vec()),
        ("security.label", b"secret".to_vec()),
        ("trusted.label", b"secret".to_vec()),
    ] {
        let folder = folder("access-attributes");
        set_mode(&folder, "two.bin", 0o600);
        let path = folder.path("two.bin");
        if !set(&path, name, &value) {
            skipped(&format!("the disk takes no {name}"));
            continue;
        }
        let before = (mode(&folder, "two.bin"), get(&path, name));
        assert_eq!(folder.run(&POST).status, 1, "{name}");
        assert_eq!(folder.read("two.bin"), two_rows_posted());
        assert_eq!((mode(&folder, "two.bin"), get(&path, name)), before);
    }
}

#[test]
fn an_acl_of_the_folder_widens_nothing() {
    let folder = folder("access-default");
    let path = folder.path("two.bin");
    set_mode(&folder, "two.bin", 0o640);
    if !set(&folder.path("."), "system.posix_acl_default", &acl()) {
        skipped("the disk takes no ACL");
        return;
    }
    assert_eq!(folder.run(&POST).status, 1);
    assert_eq!(get(&path, ACL), None);
    assert_eq!(mode(&folder, "two.bin"), 0o640);
}

#[test]
fn owners_are_kept() {
    let folder = folder("access-owner");
    if chown(folder.path("two.bin"), Some(4711), Some(4712)).is_err() {
        skipped("files can't be given away here");
        return;
    }
    assert_eq!(folder.run(&POST).status, 1);
    for name in ["two.bin", "two.bin.log"] {
        let about = fs::metadata(folder.path(name)).expect("it is there");
        assert_eq!((about.uid(), about.gid()), (4711, 4712), "{name}");
    }
}

#[test]
fn a_file_whose_owner_can_not_be_kept_is_refused() {
    let folder = folder("access-others");
    set_mode(&folder, ".", 0o777);
    set_mode(&folder, "two.bin", 0o666);
    set_mode(&folder, "weekly.bin", 0o644);
    let mut command = folder.command(&POST);
    command.uid(65_534).gid(65_534);
    let Ok(output) = command.output() else {
        skipped("no other user can run the program");
        return;
    };
    let ran: Ran = output.into();
    assert_eq!(ran.status, 3, "{ran:?}");
    assert!(ran.err.contains("its owner can't be kept"), "{}", ran.err);
    assert!(ran.err.contains("no file is changed"), "{}", ran.err);
    assert_eq!(folder.read("two.bin"), two_rows("00"));
    assert_eq!(folder.names(), ["two.bin", "weekly.bin"]);
}

#[test]
fn a_group_that_can_not_be_kept_is_refused() {
    let folder = folder("access-group");
    set_mode(&folder, ".", 0o777);
    set_mode(&folder, "two.bin", 0o660);
    set_mode(&folder, "weekly.bin", 0o644);
    if chown(folder.path("two.bin"), Some(65_534), Some(4712)).is_err() {
        skipped("files can't be given away here");
        return;
    }
    let mut command = folder.command(&POST);
    command.uid(65_534).gid(65_534);
    let Ok(output) = command.output() else {
        skipped("no other user can run the program");
        return;
    };
    let ran: Ran = output.into();
    assert_eq!(ran.status, 3, "{ran:?}");
    assert!(ran.err.contains("its group can't be kept"), "{}", ran.err);
    assert_eq!(folder.read("two.bin"), two_rows("00"));
}

#[test]
fn a_label_that_can_not_be_kept_is_refused() {
    let folder = folder("access-label");
    let path = folder.path("two.bin");
    set_mode(&folder, ".", 0o777);
    set_mode(&folder, "weekly.bin", 0o644);
    let given = chown(&path, Some(65_534), Some(65_534)).is_ok();
    if !given || !set(&path, "security.label", b"secret") {
        skipped("the disk takes no security label");
        return;
    }
    let mut command = folder.command(&POST);
    command.uid(65_534).gid(65_534);
    let Ok(output) = command.output() else {
        skipped("no other user can run the program");
        return;
    };
    let ran: Ran = output.into();
    assert_eq!(ran.status, 3, "{ran:?}");
    let message = "its security label security.label can't be kept";
    assert!(ran.err.contains(message), "{}", ran.err);
    assert_eq!(folder.read("two.bin"), two_rows("00"));
    assert_eq!(folder.names(), ["two.bin", "weekly.bin"]);
}

#[test]
fn read_only_files_are_refused() {
    let folder = folder("access-read-only");
    set_mode(&folder, "two.bin", 0o444);
    let ran = folder.run(&POST);
    assert_eq!(ran.status, 3, "{ran:?}");
    assert!(
        ran.err.contains("its owner made it read-only"),
        "{}",
        ran.err
    );
    assert_eq!(folder.read("two.bin"), two_rows("00"));
    assert_eq!(folder.names(), ["two.bin", "weekly.bin"]);
    set_mode(&folder, "two.bin", 0o644);
    folder.write("out.bin", b"old");
    set_mode(&folder, "out.bin", 0o400);
    let to = ["to-ascii", "weekly.bin", "--out", "out.bin", "--force"];
    assert_eq!(folder.run(&to).status, 3);
    assert_eq!(folder.read("out.bin"), b"old");
}

/// The commands that make files, each with the files that it makes.
fn makers() -> Vec<(Vec<&'static str>, &'static str)> {
    let reconcile = ["reconcile", "master.bin", "--state", "OH", "--date"];
    let codes = ["codes", "table.bin", "--state", "OH", "--out", "codes.bin"];
    let mut first = with(&APPLY, &["--new"]);
    first[1] = "first.bin";
    first[8] = "first-rejects.bin";
    vec![
        (APPLY.to_vec(), "rejects.bin"),
        (first.clone(), "first.bin"),
        (first, "first-rejects.bin"),
        (
            with(&reconcile, &["20071231", "--out", "rec.bin"]),
            "rec.bin",
        ),
        (codes.to_vec(), "codes.bin"),
        (
            vec!["to-ascii", "batch.bin", "--out", "batch.txt"],
            "batch.txt",
        ),
        (
            vec!["to-ebcdic", "text.txt", "--out", "text.bin"],
            "text.bin",
        ),
        (
            vec!["contacts", "new.bin", "contacts.bin", "--new"],
            "new.bin",
        ),
    ]
}

fn all_files(name: &str) -> Folder {
    let folder = Folder::with_master(name);
    folder.write("table.bin", &contact_table());
    folder.write("contacts.bin", &contact_file());
    folder.write("text.txt", b"OH 123456789");
    folder
}

/// Runs with the widest mask.
fn run_wide(folder: &Folder, arguments: &[&str]) -> Ran {
    extern "C" {
        fn umask(mask: u32) -> u32;
    }
    let mut command = folder.command(arguments);
    // SAFETY: the call changes the mask of the child alone and may be made between fork and exec.
    unsafe {
        command.pre_exec(|| {
            umask(0);
            Ok(())
        });
    }
    command.output().expect("it can be run").into()
}

#[test]
fn new_files_are_their_owners_alone() {
    for (arguments, made) in makers() {
        let folder = all_files("access-new");
        set_mode(&folder, "master.bin", 0o666);
        let ran = run_wide(&folder, &arguments);
        assert!(ran.status < 2, "{arguments:?}: {ran:?}");
        assert_eq!(mode(&folder, made), 0o600, "{made}");
        // a log may be read by who may read the master
        for name in folder.names().iter().filter(|name| name.ends_with(".log")) {
            let wanted = if name == "master.bin.log" {
                0o644
            } else {
                0o600
            };
            assert_eq!(mode(&folder, name), wanted, "{name}");
        }
        let folder = all_files("access-wider");
        let ran = folder.run(&with(&arguments, &["--mode", "644"]));
        assert!(ran.status < 2, "{arguments:?}: {ran:?}");
        assert_eq!(mode(&folder, made), 0o644, "{made}");
        for wrong in ["", "64", "0644", "999", "rw-"] {
            let ran = folder.run(&with(&arguments, &["--mode", wrong]));
            assert_eq!(ran.status, 3, "{wrong}");
        }
    }
}

#[test]
fn logs_go_by_their_masters() {
    let apply = with(&APPLY, &["--new", "--mode", "640"]);
    let first = Folder::with_example("access-log-new");
    assert_eq!(first.run(&apply).status, 1);
    for name in ["master.bin", "master.bin.log"] {
        assert_eq!(mode(&first, name), 0o640, "{name}");
    }
    // the owner goes on writing it
    let second = Folder::with_example("access-log-read");
    let apply = with(&APPLY, &["--new", "--mode", "440"]);
    assert_eq!(second.run(&apply).status, 1);
    assert_eq!(mode(&second, "master.bin"), 0o440);
    assert_eq!(mode(&second, "master.bin.log"), 0o640);
    for (of_master, of_log) in [(0o600, 0o600), (0o640, 0o640), (0o660, 0o640)] {
        let folder = folder("access-log");
        set_mode(&folder, "two.bin", of_master);
        assert_eq!(folder.run(&POST).status, 1);
        assert_eq!(mode(&folder, "two.bin.log"), of_log);
        // one that is there stays as it is
        set_mode(&folder, "two.bin.log", 0o604);
        assert_eq!(folder.run(&with(&POST, &["--again"])).status, 1);
        assert_eq!(mode(&folder, "two.bin.log"), 0o604);
    }
    let with_acl = folder("access-log-acl");
    if !set(&with_acl.path("two.bin"), ACL, &acl()) {
        skipped("the disk takes no ACL");
        return;
    }
    assert_eq!(with_acl.run(&POST).status, 1);
    assert_eq!(mode(&with_acl, "two.bin.log"), 0o600);
}

/// What can't be known of the log is no "ready", but the report is printed.
#[test]
fn logs_that_may_not_be_read() {
    let folder = folder("access-log-closed");
    folder.write("batch.bin", &paper_batch());
    folder.write("locals.bin", &[]);
    assert_eq!(folder.run(&POST).status, 1);
    set_mode(&folder, ".", 0o755);
    for name in ["two.bin", "weekly.bin", "batch.bin", "locals.bin"] {
        set_mode(&folder, name, 0o644);
    }
    set_mode(&folder, "two.bin.log", 0o600);
    let mut check = CHECK;
    check[1] = "two.bin";
    let dry = with(&POST, &["--dry-run", "--again"]);
    for (arguments, start) in [
        (&check[..], "check: not ready: "),
        (&dry, "post: would be stopped: "),
    ] {
        let mut command = folder.command(arguments);
        command.uid(65_534).gid(65_534);
        let Ok(output) = command.output() else {
            skipped("no other user can run the program");
            return;
        };
        let ran: Ran = output.into();
        assert_eq!(ran.status, 3, "{ran:?}");
        assert!(ran.out.starts_with(start), "{}", ran.out);
        let words = "two.bin.log can't be read: permission denied: it may have been ";
        assert!(ran.out.contains(words), "{}", ran.out);
        assert!(ran.out.contains("\n  rows "), "{}", ran.out);
    }
}

#[test]
fn temporary_and_lock_files_are_their_owners_alone() {
    let folder = all_files("access-beside");
    let pipe = folder.path("pipe");
    let made = std::process::Command::new("mkfifo").arg(&pipe).status();
    assert!(made.is_ok_and(|status| status.success()));
    let arguments = ["to-ascii", "pipe", "--out", "out.txt"];
    let mut child = folder.command(&arguments).spawn().expect("it runs");
    // the run waits for the pipe before it has a temporary file; a part is converted when the pipe is open
    let feed = fs::OpenOptions::new()
        .write(true)
        .open(&pipe)
        .expect("it is read");
    for name in ["out.txt.tmp", "out.txt.lock"] {
        let waited = (0..500).any(|_| {
            std::thread::sleep(std::time::Duration::from_millis(10));
            folder.has(name)
        });
        assert!(waited, "{name}");
        assert_eq!(mode(&folder, name), 0o600, "{name}");
    }
    drop(feed);
    assert!(child.wait().expect("it ends").success());
    assert!(!folder.has("out.txt.tmp") && !folder.has("out.txt.lock"));
}
