//! Runs that a signal ends: no temporary file or lock stays, and the next run isn't stopped.

mod common;

use std::ffi::c_int;
use std::fs::{self, File};
use std::os::unix::process::{CommandExt, ExitStatusExt};
use std::process::{Child, Command, Stdio};
use std::thread::sleep;
use std::time::Duration;

use common::*;

extern "C" {
    fn kill(process: c_int, signal: c_int) -> c_int;
    fn signal(number: c_int, action: usize) -> usize;
}

const HANG_UP: c_int = 1;
const INTERRUPT: c_int = 2;
const KILL: c_int = 9;
const TERMINATE: c_int = 15;

fn send(child: &Child, number: c_int) {
    // SAFETY: the child is not waited for yet, so the number is its own.
    assert_eq!(unsafe { kill(child.id() as c_int, number) }, 0);
}

/// The command with these signals as they are by themselves: where the test runs they may be ignored, and would stay so.
fn by_default(mut command: Command) -> Command {
    // SAFETY: the calls change what the child does with signals, and may be made between fork and exec.
    unsafe {
        command.pre_exec(|| {
            for number in [HANG_UP, INTERRUPT, TERMINATE] {
                signal(number, 0);
            }
            Ok(())
        });
    }
    command
}

fn folder(name: &str) -> Folder {
    let folder = Folder::with_master(name);
    let made = Command::new("mkfifo").arg(folder.path("pipe")).status();
    assert!(made.is_ok_and(|status| status.success()));
    folder
}

/// A run that reads from a pipe, when it has the files that are named. The end of the pipe that it waits for is held.
fn waiting(folder: &Folder, command: &mut Command, names: &[&str]) -> (Child, File) {
    command.stdout(Stdio::null()).stderr(Stdio::null());
    let child = command.spawn().expect("it can be run");
    let feed = fs::OpenOptions::new().write(true).open(folder.path("pipe"));
    let feed = feed.expect("the run reads it");
    for name in names {
        while !folder.has(name) {
            sleep(Duration::from_millis(2));
        }
    }
    (child, feed)
}

/// The files beside those that the tests made.
fn leftovers(folder: &Folder) -> Vec<String> {
    let is_left = |name: &String| name.ends_with(".tmp") || name.ends_with(".lock");
    folder.names().into_iter().filter(is_left).collect()
}

const TO_ASCII: [&str; 4] = ["to-ascii", "pipe", "--out", "out.txt"];

#[test]
fn signals_leave_nothing() {
    let mut apply = APPLY;
    apply[2] = "pipe";
    for (arguments, names) in [
        (&apply[..], &["master.bin.lock", "rejects.bin.lock"][..]),
        (&TO_ASCII, &["out.txt.lock", "out.txt.tmp"]),
    ] {
        for number in [INTERRUPT, TERMINATE, HANG_UP] {
            let folder = folder("signals-nothing");
            let mut command = by_default(folder.command(arguments));
            let (mut child, feed) = waiting(&folder, &mut command, names);
            send(&child, number);
            let ended = child.wait().expect("it ends");
            assert_eq!(ended.signal(), Some(number), "{arguments:?}");
            drop(feed);
            assert_eq!(leftovers(&folder), Vec::<String>::new(), "{arguments:?}");
            assert_eq!(folder.read("master.bin"), paper_row());
            assert!(!folder.has("out.txt") && !folder.has("rejects.bin"));
        }
    }
}

#[test]
fn signals_that_are_ignored_stay_ignored() {
    let folder = folder("signals-ignored");
    let mut command = folder.command(&TO_ASCII);
    // SAFETY: the call changes what the child does with a signal, and may be made between fork and exec.
    unsafe {
        command.pre_exec(|| {
            signal(HANG_UP, 1);
            Ok(())
        });
    }
    let (mut child, feed) = waiting(&folder, &mut command, &["out.txt.tmp"]);
    send(&child, HANG_UP);
    sleep(Duration::from_millis(50));
    drop(feed);
    assert!(child.wait().expect("it ends").success());
    assert!(folder.has("out.txt"));
    assert_eq!(leftovers(&folder), Vec::<String>::new());
}

#[test]
fn locks_of_killed_runs_stop_no_one() {
    let folder = folder("signals-killed");
    let names = ["out.txt.lock", "out.txt.tmp"];
    let (mut child, feed) = waiting(&folder, &mut folder.command(&TO_ASCII), &names);
    let busy = folder.run(&["to-ascii", "batch.bin", "--out", "out.txt"]);
    assert_eq!(busy.status, 5, "{busy:?}");
    send(&child, KILL);
    assert_eq!(child.wait().expect("it ends").signal(), Some(KILL));
    drop(feed);
    assert_eq!(leftovers(&folder), names);
    let next = folder.run(&["to-ascii", "batch.bin", "--out", "out.txt"]);
    assert_eq!(next.status, 0, "{next:?}");
    assert_eq!(leftovers(&folder), Vec::<String>::new());
}

/// Signals at any time: the master is the old one or the new one, the log says which, and nothing is left.
#[test]
fn signals_at_any_time() {
    let folder = Folder::new("signals-any");
    let rows: Vec<u8> = (0..5_000)
        .flat_map(|n| row(&format!("OH{:09}N", 900_000_001 + n), "00000100", "00"))
        .collect();
    let none = "00000000000";
    folder.write(
        "weekly.bin",
        &[line("900000001", "N", "00000000100", none), total(0, 1)].concat(),
    );
    let post = ["post", "two.bin", "weekly.bin"];
    for number in 0..30 {
        folder.write("two.bin", &rows);
        let _ = fs::remove_file(folder.path("two.bin.log"));
        let mut command = by_default(folder.command(&post));
        command.stdout(Stdio::null()).stderr(Stdio::null());
        let mut child = command.spawn().expect("it can be run");
        sleep(Duration::from_micros(300 * number));
        send(&child, [INTERRUPT, TERMINATE, HANG_UP][number as usize % 3]);
        let _ = child.wait();
        let is_new = folder.read("two.bin") != rows;
        let left = leftovers(&folder);
        assert_eq!(left, Vec::<String>::new(), "{number}");
        let log = folder.run(&["log", "two.bin"]).out;
        let carried_out = log.contains("post: carried out\n");
        assert_eq!(carried_out, is_new, "{number}: {log}");
        assert_eq!(log.contains("post: not"), false, "{number}: {log}");
    }
}
