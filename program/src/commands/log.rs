//! log: the runs on a master, and what became of each.

use std::fs::File;
use std::io::{self, Read, Write};
use std::path::Path;

use crate::arguments::Arguments;
use crate::commands::output::print;
use crate::failure::{grouped, shown, Failure, Status};
use crate::files::protect::looks_like_master;
use crate::files::read::unread;
use crate::files::target::Target;
use crate::log::history::{outcomes, read_log, Outcome};
use crate::log::line::Run;
use crate::log::sha256::Sha256;
use crate::progress::Progress;
use crate::report::json::Json;
use crate::report::screen::{Screen, Style};
use crate::report::summary::Summary;

pub fn run(arguments: &Arguments, progress: &Progress) -> Result<Status, Failure> {
    let target = Target::of(arguments.path(0))?;
    let (_, runs) = read_log(&target.log())?;
    let is_gone = !target.exists();
    if is_gone && runs.is_empty() {
        return Err(Failure::file(&target.given, "no such file"));
    }
    if runs.is_empty() && !looks_like_master(&target)? {
        let what = "is no master, and has no log beside it; `fantanolive log MASTER` wants the master itself";
        return Err(Failure::file(&target.given, what));
    }
    // a first run that was cut off has a log and no master
    let now = match is_gone {
        true => None,
        false => print_of_file(arguments.path(0), progress)?,
    };
    let outcomes = outcomes(&runs, now.as_deref());
    let count = |wanted| {
        outcomes
            .iter()
            .filter(|&&outcome| outcome == wanted)
            .count() as u64
    };
    let summary = Summary::new("log", Status::Done)
        .heading("the runs on this master")
        .text("log", shown(&target.log_target()?.given))
        .number("runs", runs.len() as u64)
        .of_which("carried out", count(Outcome::CarriedOut))
        .of_which("taken back", count(Outcome::TakenBack))
        .of_which("not carried out", count(Outcome::NotCarriedOut))
        .of_which("unknown", count(Outcome::Unknown));
    let lines: Vec<(Run, Outcome)> = runs.into_iter().zip(outcomes).collect();
    print(
        arguments,
        progress,
        &summary,
        |screen| put_text(screen, &lines),
        |json| put_json(json, &lines, now.as_deref()),
    )
}

/// Bytes that are read at a time: whole blocks of a fingerprint.
const PART: usize = 1 << 20;

/// The fingerprint of a master that is read in parts; none where it has no row.
fn print_of_file(path: &Path, progress: &Progress) -> Result<Option<String>, Failure> {
    progress.now(format!("reading {}", shown(path)));
    let failed = |error: io::Error| unread(path, &error);
    let mut file = File::open(path).map_err(failed)?;
    let whole = file.metadata().map_err(failed)?.len();
    let (mut print, mut part, mut done) = (Sha256::default(), Vec::with_capacity(PART), 0);
    loop {
        part.clear();
        let read = (&mut file).take(PART as u64).read_to_end(&mut part);
        done += read.map_err(failed)?;
        progress.done(done, whole as usize);
        if part.len() < PART {
            return Ok((done > 0).then(|| print.end(&part)));
        }
        print.take(&part);
    }
}

fn put_text<W: Write>(screen: &mut Screen<W>, runs: &[(Run, Outcome)]) -> io::Result<()> {
    if runs.is_empty() {
        screen.plain("")?;
        screen.plain("no run is logged: there is no log, or an empty one")?;
    }
    for (run, outcome) in runs {
        screen.plain("")?;
        let heading = format!("{}  {}: {}", run.time, run.command, outcome.words());
        let style = match outcome {
            Outcome::CarriedOut | Outcome::TakenBack => Style::Heading,
            _ => Style::Warning,
        };
        screen.line(style, &heading)?;
        for input in run.inputs.iter().chain(&run.journal) {
            let (kind, name, print) = (&input.kind, &input.name, &input.sha256[..16]);
            screen.plain(&format!("  {kind}  {name}  {print}.."))?;
        }
        let counts: Vec<String> = run
            .counts
            .iter()
            .map(|(name, count)| format!("{} {}", name.replace('_', " "), grouped(*count)))
            .collect();
        screen.wrapped(Style::Plain, "  ", &counts.join(", "), 2)?;
    }
    Ok(())
}

fn put_json<W: Write>(
    json: &mut Json<W>,
    runs: &[(Run, Outcome)],
    now: Option<&str>,
) -> io::Result<()> {
    json.maybe_text_of("master_now", now)?;
    json.name("log_lines")?;
    json.begin_array()?;
    for (run, outcome) in runs {
        json.begin_object()?;
        json.text_of("became", outcome.words())?;
        run.put_members(json)?;
        json.end_object()?;
    }
    json.end_array()
}
