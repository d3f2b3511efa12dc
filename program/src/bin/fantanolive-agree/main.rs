//! fantanolive-agree: the command `agree`, with the kit that shows where another engine and the library part. The cases are made up,
//! so that nothing in them is masked.
//!
//! `fantanolive agree` starts it, with what stands behind `agree`; `fantanolive-agree OTHER ..` is the same.

mod asked;
mod cases;
mod json;
mod outcome;
mod text;

use std::io::{self, Write};
use std::process::ExitCode;

use agreement::calls::CALLS;
use agreement::engine::Engine;
use agreement::protocol::names;
use agreement::serve;
use fantanolive_program::{
    one_command, report_output, Arguments, Failure, Json, Progress, Screen, Status,
};

use asked::{asked, other};
use cases::{compared, save};
use json::put_json;
use outcome::{judged, Done};
use text::put_text;

fn main() -> ExitCode {
    one_command("agree", run)
}

fn run(arguments: &Arguments, progress: &Progress) -> Result<Status, Failure> {
    if let Some((library, prefix)) = serve::asked() {
        serve::serve(&library, &prefix);
        return Ok(Status::Done);
    }
    let asked = asked(arguments)?;
    let mut other = other(arguments)?;
    let (mut calls, skipped): (Vec<usize>, Vec<usize>) =
        asked.calls.iter().partition(|&&call| other.has(call));
    calls.retain(|&call| CALLS[call].since <= asked.request);
    if calls.is_empty() {
        let none = "it has none of the calls asked for";
        return Err(Failure::file(arguments.path(0), none));
    }
    let report = compared(arguments, progress, &asked, &calls, &mut other)?;
    let done = judged(arguments, &asked, calls, names(&skipped), report);
    save(arguments, &done.report.found)?;
    progress.over();
    put(arguments, &done).map_err(|error| Failure::Output {
        error,
        changed: false,
    })?;
    Ok(done.status)
}

fn put(arguments: &Arguments, done: &Done) -> io::Result<()> {
    if arguments.flag("--json") {
        let mut out = report_output(false);
        let mut json = Json::new(&mut out).full(true);
        json.begin_object()?;
        put_json(&mut json, done)?;
        json.end_object()?;
        json.finish()?;
        drop(json);
        return out.flush();
    }
    let mut screen = Screen::of_report(false).full(true);
    put_text(&mut screen, done)?;
    screen.flush()
}
