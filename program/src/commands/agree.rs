//! agree: shows where another engine and the library part. What it needs for that is another program, fantanolive-agree, which
//! takes the place of this one.

use std::env;
use std::io;
use std::os::unix::process::CommandExt;
use std::path::{Path, PathBuf};
use std::process::{Command, Stdio};

use fantanolive::VERSION;

use crate::arguments::Arguments;
use crate::failure::{shown, words, Failure, Status};
use crate::help::version;
use crate::progress::Progress;

const PROGRAM: &str = "fantanolive-agree";
/// What is to be done where it isn't as it must be.
const TO_DO: &str = "install the whole package";

pub fn run(_: &Arguments, _: &Progress) -> Result<Status, Failure> {
    let program = found()?;
    see_version(&program)?;
    // those behind the command's name, as they were given
    let given = env::args_os().skip(2);
    let error = Command::new(&program).args(given).exec();
    Err(unstarted(&program, &error))
}

/// The folders where it may be: that of this program's own file, links followed, and the one beside that for programs that
/// programs start. No other is looked at.
fn folders() -> io::Result<[PathBuf; 2]> {
    let own = env::current_exe()?;
    let folder = own.parent().unwrap_or(Path::new("/"));
    let above = folder.parent().unwrap_or(folder);
    Ok([folder.to_path_buf(), above.join("libexec/fantanolive")])
}

fn found() -> Result<PathBuf, Failure> {
    let folders = folders().map_err(|error| Failure::File(format!("{PROGRAM}: {error}")))?;
    let mut programs = folders.iter().map(|folder| folder.join(PROGRAM));
    programs.find(|program| program.is_file()).ok_or_else(|| {
        let [beside, other] = folders.each_ref().map(|folder| shown(folder));
        Failure::File(format!(
            "{PROGRAM}: no such file in {beside} or {other}; the command needs it: {TO_DO}"
        ))
    })
}

/// Sees that it is of the same version.
fn see_version(program: &Path) -> Result<(), Failure> {
    let asked = Command::new(program)
        .arg("--version")
        .stdin(Stdio::null())
        .output();
    let said = asked.map_err(|error| unstarted(program, &error))?.stdout;
    if said == version(PROGRAM).as_bytes() {
        return Ok(());
    }
    let said = String::from_utf8_lossy(&said);
    let what = match said.trim().strip_prefix(&format!("{PROGRAM} ")) {
        Some(version) => format!("it is of version {version}, and fantanolive of {VERSION}"),
        None => format!("it doesn't say that it is of version {VERSION}, as fantanolive is"),
    };
    Err(Failure::file(program, format!("{what}: {TO_DO}")))
}

fn unstarted(program: &Path, error: &io::Error) -> Failure {
    let what = format!("it can't be run: {}; {TO_DO}", words(error));
    Failure::file(program, what)
}
