//! agree through its two programs: where the second one is looked for, and what is said where it is missing or another one.

mod common;

use std::ffi::{c_int, OsStr};
use std::fs;
use std::os::unix::ffi::OsStrExt;
use std::os::unix::fs::{symlink, PermissionsExt};
use std::os::unix::process::ExitStatusExt;
use std::path::PathBuf;
use std::process::{Command, Stdio};
use std::sync::{Mutex, MutexGuard};

use common::*;
use fantanolive::VERSION;

const AGREE: &str = env!("CARGO_BIN_EXE_fantanolive-agree");

/// An engine of one call that answers 99 to every case.
const WRONG_ENGINE: &str = "#!/bin/sh
while read -r word rest; do
    case $word in
    calls) echo 'calls find' ;;
    go) echo 'answer 99' && echo 'done' ;;
    esac
done
";
/// One that never answers, and leaves a file when it is asked.
const SILENT_ENGINE: &str = "#!/bin/sh
while read -r word rest; do
    case $word in
    calls) echo 'calls find' ;;
    go) : >asked ;;
    esac
done
";
const RUN: [&str; 6] = ["agree", "engine", "--cases", "20", "--seed", "1"];

/// A folder with `bin/fantanolive`, another place for programs and an engine. No two tests run at once: a file that is being
/// written by one can't be run while another starts a process.
struct Installed {
    folder: Folder,
    _alone: MutexGuard<'static, ()>,
}

impl Installed {
    fn new(name: &str) -> Installed {
        static ALONE: Mutex<()> = Mutex::new(());
        let alone = ALONE.lock().unwrap_or_else(|other| other.into_inner());
        let installed = Installed {
            folder: Folder::new(name),
            _alone: alone,
        };
        for folder in ["bin", "libexec/fantanolive", "elsewhere"] {
            let made = fs::create_dir_all(installed.folder.path(folder));
            made.expect("a folder can be made");
        }
        installed.link(PROGRAM, "bin/fantanolive");
        installed.script("engine", WRONG_ENGINE);
        installed
    }

    /// The program of this name, which is one of those that were built.
    fn link(&self, program: &str, name: &str) {
        fs::hard_link(program, self.folder.path(name)).expect("it can be linked");
    }

    fn script(&self, name: &str, text: &str) {
        self.folder.write(name, text.as_bytes());
        let mode = fs::Permissions::from_mode(0o755);
        fs::set_permissions(self.folder.path(name), mode).expect("it is the test's own");
    }

    /// A program that says this version, and leaves the file `ran` when it is asked for anything else.
    fn other_program(&self, name: &str, version: &str) {
        let text = format!("#!/bin/sh\n[ \"$1\" = --version ] || : >ran\necho '{version}'\n");
        self.script(name, &text);
    }

    fn command(&self, program: &str, arguments: &[&str]) -> Command {
        let mut command = Command::new(self.folder.path(program));
        command.args(arguments).stdin(Stdio::null());
        command.current_dir(self.folder.path(""));
        command
    }

    fn run(&self, program: &str, arguments: &[&str]) -> Ran {
        let output = self.command(program, arguments).output();
        output.expect("the program can be run").into()
    }

    /// The path of a name as messages have it.
    fn shown(&self, name: &str) -> String {
        let folder = fs::canonicalize(self.folder.path("")).expect("it is there");
        folder.join(name).display().to_string()
    }

    /// That the run with `bin/fantanolive` ends with 3 and this message, in both forms, and starts nothing.
    fn stops(&self, message: &str) {
        let ran = self.run("bin/fantanolive", &RUN);
        let text = format!("fantanolive: agree: {message}\n");
        assert_eq!((ran.status, ran.out.as_str(), ran.err), (3, "", text));
        let ran = self.run("bin/fantanolive", &with(&RUN, &["--json"]));
        let json = format!(
            "{{\"command\":\"agree\",\"version\":\"{VERSION}\",\"schema\":\"problem.1\",\"outcome\":\"failed\",\"status\":3,\"message\":\"{message}\"}}\n"
        );
        assert_eq!((ran.status, ran.out, ran.err.as_str()), (3, json, ""));
        assert!(!self.folder.has("ran"));
    }

    /// The message where the other program is missing.
    fn missing(&self) -> String {
        format!(
            "fantanolive-agree: no such file in {} or {}; the command needs it: install the whole package",
            self.shown("bin"),
            self.shown("libexec/fantanolive")
        )
    }
}

/// A report without its time.
fn timeless(text: &str) -> String {
    let kept = |line: &&str| !line.ends_with(" seconds");
    text.lines().filter(kept).collect::<Vec<_>>().join("\n")
}

/// That the run found what is wrong with the engine.
fn parts(ran: &Ran) {
    assert_eq!((ran.status, ran.err.as_str()), (1, ""), "{ran:?}");
    assert!(ran.out.starts_with("they part: "), "{}", ran.out);
    assert!(ran.out.contains("\nseed 1, "), "{}", ran.out);
}

#[test]
fn both_programs() {
    let installed = Installed::new("agree-both");
    installed.link(AGREE, "bin/fantanolive-agree");
    let ran = installed.run("bin/fantanolive", &RUN);
    parts(&ran);
    let by_itself = installed.run("bin/fantanolive-agree", &RUN[1..]);
    parts(&by_itself);
    assert_eq!(timeless(&by_itself.out), timeless(&ran.out));
    let json = installed.run("bin/fantanolive", &with(&RUN, &["--json"]));
    assert_eq!((json.status, json.err.as_str()), (1, ""));
    assert!(json.out.starts_with("{\"command\":\"agree\",\"version\":"));
    assert!(json.out.contains(",\"status\":1,"), "{}", json.out);
    assert!(json.out.contains(",\"seed\":1,"), "{}", json.out);
}

#[test]
fn beside_before_libexec() {
    let installed = Installed::new("agree-libexec");
    installed.link(AGREE, "libexec/fantanolive/fantanolive-agree");
    parts(&installed.run("bin/fantanolive", &RUN));
    installed.other_program("bin/fantanolive-agree", "fantanolive-agree 1.9.9");
    assert_eq!(installed.run("bin/fantanolive", &RUN).status, 3);
}

#[test]
fn links_are_followed() {
    let installed = Installed::new("agree-links");
    installed.link(AGREE, "libexec/fantanolive/fantanolive-agree");
    installed.other_program("elsewhere/fantanolive-agree", "fantanolive-agree 1.9.9");
    let link = installed.folder.path("elsewhere/fantanolive");
    symlink("../bin/fantanolive", link).expect("a link can be made");
    parts(&installed.run("elsewhere/fantanolive", &RUN));
    assert!(!installed.folder.has("ran"));
}

#[test]
fn missing() {
    let installed = Installed::new("agree-missing");
    installed.stops(&installed.missing());
    let folder = installed.folder.path("bin/fantanolive-agree");
    fs::create_dir(folder).expect("a folder can be made");
    installed.stops(&installed.missing());
}

#[test]
fn neither_by_path_nor_in_the_current_folder() {
    let installed = Installed::new("agree-path");
    let version = format!("fantanolive-agree {VERSION}");
    for folder in ["", "elsewhere/"] {
        installed.other_program(&format!("{folder}fantanolive-agree"), &version);
    }
    let message = format!("fantanolive: agree: {}\n", installed.missing());
    let folders = [installed.folder.path("elsewhere"), PathBuf::from(".")];
    let path = std::env::join_paths(folders).expect("no colon in them");
    let mut command = installed.command("bin/fantanolive", &RUN);
    let ran: Ran = command
        .env("PATH", path)
        .output()
        .expect("it can be run")
        .into();
    assert_eq!((ran.status, ran.out.as_str(), ran.err), (3, "", message));
    assert!(!installed.folder.has("ran"));
}

#[test]
fn another_version() {
    let installed = Installed::new("agree-version");
    let name = "libexec/fantanolive/fantanolive-agree";
    let path = installed.shown(name);
    installed.other_program(name, "fantanolive-agree 1.9.9");
    installed.stops(&format!(
        "{path}: it is of version 1.9.9, and fantanolive of {VERSION}: install the whole package"
    ));
    for said in ["", "another program 2.0"] {
        installed.other_program(name, said);
        installed.stops(&format!(
            "{path}: it doesn't say that it is of version {VERSION}, as fantanolive is: install the whole package"
        ));
    }
}

#[test]
fn one_that_cannot_be_run() {
    let installed = Installed::new("agree-mode");
    installed.folder.write("bin/fantanolive-agree", b"");
    installed.stops(&format!(
        "{}: it can't be run: permission denied; install the whole package",
        installed.shown("bin/fantanolive-agree")
    ));
}

#[test]
fn help_and_wrong_arguments_without_it() {
    let installed = Installed::new("agree-arguments");
    let help = installed.run("bin/fantanolive", &["agree", "--help"]);
    assert_eq!((help.status, help.err.as_str()), (0, ""));
    assert!(help.out.starts_with("usage: fantanolive agree OTHER "));
    for (arguments, message) in [
        (&["agree"][..], "OTHER is missing"),
        (&["agree", "a", "b"], "'b' is one argument too many"),
        (
            &["agree", "a", "--case", "1"],
            "unknown option '--case'; did you mean '--cases'?",
        ),
    ] {
        let ran = installed.run("bin/fantanolive", arguments);
        let text = format!("fantanolive: agree: {message}\nSee `fantanolive agree --help`.\n");
        assert_eq!((ran.status, ran.err), (3, text));
    }
}

#[test]
fn the_second_program_by_itself() {
    let installed = Installed::new("agree-itself");
    installed.link(AGREE, "elsewhere/fantanolive-agree");
    let run = |arguments: &[&str]| installed.run("elsewhere/fantanolive-agree", arguments);
    for asked in ["--version", "-V"] {
        let version = format!("fantanolive-agree {VERSION}\n");
        assert_eq!((run(&[asked]).status, run(&[asked]).out), (0, version));
    }
    let help = installed.run("bin/fantanolive", &["agree", "--help"]).out;
    assert_eq!((run(&["--help"]).status, run(&["-h"]).out), (0, help));
    let text = "fantanolive: agree: OTHER is missing\nSee `fantanolive agree --help`.\n";
    assert_eq!((run(&[]).status, run(&[]).err.as_str()), (3, text));
    let text = "fantanolive: agree: none.so: no such file\n";
    assert_eq!(run(&["none.so"]).err, text);
}

#[test]
fn what_the_second_program_says() {
    let installed = Installed::new("agree-says");
    installed.link(AGREE, "bin/fantanolive-agree");
    let mut command = installed.command("bin/fantanolive", &["agree"]);
    let other = OsStr::from_bytes(b"\xFF.so");
    let ran: Ran = command.arg(other).output().expect("it can be run").into();
    let text = "fantanolive: agree: \u{FFFD}.so: no such file\n";
    assert_eq!((ran.status, ran.err.as_str()), (3, text));
    let wrong = installed.run("bin/fantanolive", &["agree", "engine", "--cases", "x"]);
    let text = "fantanolive: agree: --cases wants a number, not 'x'\n\
                See `fantanolive agree --help`.\n";
    assert_eq!((wrong.status, wrong.err.as_str()), (3, text));
    // the process that holds a library is the second program too, and says what is the matter with it
    installed.folder.write("broken.so", b"no library");
    let broken = installed.run("bin/fantanolive", &["agree", "broken.so"]);
    assert_eq!((broken.status, broken.out.as_str()), (3, ""));
    let start = "fantanolive: agree: broken.so: ";
    assert!(broken.err.starts_with(start), "{}", broken.err);
    assert!(broken.err.contains("too short"), "{}", broken.err);
}

#[test]
fn a_signal_ends_it() {
    extern "C" {
        fn kill(process: c_int, signal: c_int) -> c_int;
    }
    const TERMINATE: c_int = 15;
    let installed = Installed::new("agree-signal");
    installed.link(AGREE, "bin/fantanolive-agree");
    installed.script("engine", SILENT_ENGINE);
    let mut command = installed.command("bin/fantanolive", &RUN);
    let command = command.stdout(Stdio::null()).stderr(Stdio::null());
    let mut child = command.spawn().expect("it can be run");
    while !installed.folder.has("asked") {
        std::thread::sleep(std::time::Duration::from_millis(2));
    }
    // the process is the second program now
    let program = fs::read_link(format!("/proc/{}/exe", child.id())).expect("it runs");
    assert_eq!(program.file_name(), Some(OsStr::new("fantanolive-agree")));
    // SAFETY: the child is not waited for yet, so the number is its own.
    assert_eq!(unsafe { kill(child.id() as c_int, TERMINATE) }, 0);
    let status = child.wait().expect("it ends");
    assert_eq!(status.signal(), Some(TERMINATE));
}
