//! Large files (65,535 rows, details, lines and contact records) through every command of the program. What a
//! command writes is compared with what the library's call gives over the same bytes; its time with that call's and with reading
//! and writing the files, their fingerprints taken where the program takes them; its memory with the sizes of the files.
//!
//!     cargo run --release -p large -- PROGRAM
//!
//! It prints a line per command and ends with status 1 where one is wrong.

mod cases;
mod files;
mod journal;
mod log;
mod measure;
mod pages;

use std::env;
use std::fs;
use std::path::{Path, PathBuf};
use std::process::ExitCode;

use cases::{cases, Case};
use files::Files;
use measure::{measure, measure_here, Measured, SMALL};

/// Memory beside the files: the program itself, its stack and its buffers.
const BESIDE: u64 = 8 << 20;

/// What starting a program and a busy machine may take, in seconds.
const START: f64 = 0.1;

/// How often a command is measured; the least time counts.
const TIMES: usize = 3;

/// A folder that goes at the end.
struct Folder(PathBuf);

impl Drop for Folder {
    fn drop(&mut self) {
        let _ = fs::remove_dir_all(&self.0);
    }
}

/// Puts the files back as they are before a command; those that it makes are not there.
fn reset(case: &Case, folder: &Path) {
    for (name, _) in &case.written {
        let _ = fs::remove_file(folder.join(name));
        let _ = fs::remove_file(folder.join(format!("{name}.log")));
    }
    for (name, bytes) in &case.changed {
        match bytes {
            Some(bytes) => fs::write(folder.join(name), bytes).expect("the folder takes files"),
            None => {
                let _ = fs::remove_file(folder.join(name));
            }
        }
    }
}

/// What is wrong with what a command left, if anything.
fn fault(case: &Case, folder: &Path, measured: &Measured) -> Option<String> {
    if measured.status != case.status {
        return Some(format!("status {}, not {}", measured.status, case.status));
    }
    for (name, bytes) in &case.written {
        if fs::read(folder.join(name)).ok().as_ref() != Some(bytes) {
            return Some(format!("{name} is not what the call gives"));
        }
    }
    let report = fs::read_to_string(folder.join("report")).expect("the report is text");
    let records = report
        .lines()
        .filter(|line| line.starts_with(case.listed.0));
    let count = records.count();
    if count != case.listed.1 {
        return Some(format!(
            "{count} lines `{}..`, not {}",
            case.listed.0, case.listed.1
        ));
    }
    let allowed = case.memory() + BESIDE;
    if measured.memory > allowed {
        return Some(format!(
            "{} bytes of memory, not {allowed}",
            measured.memory
        ));
    }
    let allowed = 3.0 * (case.call + case.files) + START;
    if case.call > 0.0 && measured.seconds > allowed {
        return Some(format!("{:.3} s, not {allowed:.3}", measured.seconds));
    }
    None
}

fn run(case: &Case, program: &Path, folder: &Path) -> bool {
    let mut least: Option<Measured> = None;
    for _ in 0..TIMES {
        reset(case, folder);
        let measured = measure(program, &case.arguments, folder);
        if least
            .as_ref()
            .is_none_or(|least| measured.seconds < least.seconds)
        {
            least = Some(measured);
        }
    }
    let measured = least.expect("it is measured at least once");
    println!(
        "{:<34}{:>9.1}{:>9.1}{:>9.1}{:>11.1}{:>13.1}",
        case.name,
        measured.seconds * 1e3,
        case.call * 1e3,
        case.files * 1e3,
        measured.memory as f64 / 1e6,
        case.memory() as f64 / 1e6,
    );
    let fault = fault(case, folder, &measured);
    if let Some(fault) = &fault {
        println!("{}: {fault}", case.name);
    }
    fault.is_none()
}

fn main() -> ExitCode {
    let arguments: Vec<_> = env::args_os().skip(1).collect();
    if arguments.first().is_some_and(|first| first == SMALL) {
        measure_here(&arguments[1..]);
        return ExitCode::SUCCESS;
    }
    let [program] = &arguments[..] else {
        eprintln!("usage: large PROGRAM");
        return ExitCode::from(2);
    };
    let program = fs::canonicalize(program).expect("the program is there");
    let name = format!("fantanolive-large-{}", std::process::id());
    let folder = Folder(env::temp_dir().join(name));
    fs::create_dir_all(&folder.0).expect("a folder can be made");
    let files = Files::new();
    files.write(&folder.0);
    println!(
        "{:<34}{:>9}{:>9}{:>9}{:>11}{:>13}",
        "65,535 records", "ms", "call", "files", "MB", "MB of files"
    );
    let wrong = cases(&files, &folder.0)
        .iter()
        .filter(|case| !run(case, &program, &folder.0))
        .count();
    println!("large: {wrong} commands are wrong");
    ExitCode::from(u8::from(wrong > 0))
}
