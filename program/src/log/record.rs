//! The line of the present run, and whether its input was taken before.

use std::path::{Path, PathBuf};
use std::thread;

use crate::arguments::Arguments;
use crate::failure::{shown, Failure};
use crate::files::read::Input;
use crate::files::target::Target;
use crate::log::before::Before;
use crate::log::history::{closed, outcomes, read_log};
use crate::log::line::{InputPrint, Run};
use crate::log::sha256::sha256;
use crate::records::kinds::{FileKind, JOURNAL};
use crate::report::summary::Summary;

/// The log as it is, and the run that is to be added.
pub struct Record {
    master: PathBuf,
    log: Vec<u8>,
    runs: Vec<Run>,
    run: Run,
}

/// The fingerprint of a master; none where it has no row.
pub fn master_print(rows: &[u8]) -> Option<String> {
    (!rows.is_empty()).then(|| sha256(rows))
}

/// The fingerprint of bytes in EBCDIC, with the name of their file.
fn print_of(kind: &FileKind, path: &Path, bytes: &[u8]) -> InputPrint {
    let name = path.file_name().unwrap_or(path.as_os_str());
    InputPrint {
        kind: kind.name.to_string(),
        name: shown(Path::new(name)),
        sha256: sha256(bytes),
    }
}

/// What a fingerprint is taken of: what was read, and nothing of a file that is longer than the library takes, which will be
/// refused.
fn printed(input: &Input) -> &[u8] {
    match input.is_too_long() {
        true => &[],
        false => &input.bytes[..input.read],
    }
}

/// That of a file as it was read.
fn print_of_input(input: &Input) -> InputPrint {
    print_of(input.kind, &input.path, printed(input))
}

/// The time of a run of a command that took a first input with this fingerprint before, unless it was not carried out, or was
/// taken back.
fn taken_before(
    runs: &[Run],
    command: &str,
    sha256: &str,
    before: &Option<String>,
) -> Option<String> {
    let is_same = |run: &Run| run.command == command && run.takes(sha256);
    let outcomes = outcomes(runs, before.as_deref());
    let mut taken = runs.iter().zip(outcomes).rev();
    taken
        .find(|(run, outcome)| outcome.may_be_in_master() && is_same(run))
        .map(|(run, _)| run.time.clone())
}

/// The same by the log of a master, for a run that writes nothing. Fingerprints of large files take seconds, so none is taken
/// that can't matter: first the log is to have a run with as many records, then one with the same input. A log that this user
/// may not read stops no such run, but leaves it unknown.
pub fn previous_run(
    command: &str,
    target: &Target,
    master: &Input,
    input: &Input,
) -> Result<Before, Failure> {
    if let Some(why) = closed(&target.log()) {
        return Ok(Before::Unread(why));
    }
    let (_, runs) = read_log(&target.log())?;
    let details = input.records().saturating_sub(1) as u64;
    let may_be_same = |run: &&Run| run.command == command && run.may_count(details);
    let mut alike = runs.iter().filter(may_be_same).peekable();
    if alike.peek().is_none() {
        return Ok(Before::Never);
    }
    let sha256 = print_of_input(input).sha256;
    if !alike.any(|run| run.takes(&sha256)) {
        return Ok(Before::Never);
    }
    let before = master_print(printed(master));
    let taken = taken_before(&runs, command, &sha256, &before);
    Ok(taken.map_or(Before::Never, Before::At))
}

impl Record {
    /// Begins the record of a command on a master, with the log beside it. The input that must not be taken twice is the first.
    pub fn begin(
        command: &str,
        target: &Target,
        master: &Input,
        inputs: &[&Input],
    ) -> Result<Record, Failure> {
        let (log, runs) = read_log(&target.log())?;
        Ok(Record::over(command, target, (log, runs), master, inputs))
    }

    /// The same for a run that writes nothing; none where no log is there.
    pub fn look(
        command: &str,
        target: &Target,
        master: &Input,
        inputs: &[&Input],
    ) -> Result<Option<Record>, Failure> {
        let (log, runs) = read_log(&target.log())?;
        let is_there = !runs.is_empty();
        Ok(is_there.then(|| Record::over(command, target, (log, runs), master, inputs)))
    }

    fn over(
        command: &str,
        target: &Target,
        (log, runs): (Vec<u8>, Vec<Run>),
        master: &Input,
        inputs: &[&Input],
    ) -> Record {
        let mut run = Run::now(command);
        // large files take seconds: the master's beside the others'
        thread::scope(|scope| {
            let before = scope.spawn(|| master_print(printed(master)));
            run.inputs = inputs.iter().map(|input| print_of_input(input)).collect();
            run.before = before.join().expect("no sum fails");
        });
        Record {
            master: target.given.clone(),
            log,
            runs,
            run,
        }
    }

    /// The time of a run that took the same first input before.
    fn taken_before(&self) -> Option<String> {
        let first = self.run.inputs.first()?;
        let command = &self.run.command;
        taken_before(&self.runs, command, &first.sha256, &self.run.before)
    }

    /// Stops a run whose input was taken before, unless --again asks for it.
    pub fn see_not_taken(&self, arguments: &Arguments, input: &Input) -> Result<(), Failure> {
        if arguments.flag("--again") {
            return Ok(());
        }
        let Some(time) = self.taken_before() else {
            return Ok(());
        };
        let what = match input.kind.name {
            "collections" => "was posted to",
            _ => "was applied to",
        };
        let master = shown(&self.master);
        let what = format!("{what} {master} before, at {time}; --again does it once more");
        Err(Failure::file(&input.path, what))
    }

    /// The same run with the journal that it writes.
    pub fn with_journal(mut self, path: &Path, journal: &[u8]) -> Record {
        self.run.journal = Some(print_of(&JOURNAL, path, journal));
        self
    }

    /// Why the journal that is the first input is not that of the batch which left the master; none where it is, or where the
    /// log knows neither the journal nor what left the master.
    pub fn not_left(&self) -> Option<String> {
        let journal = self.run.inputs.first()?;
        let is_its = |run: &&Run| {
            let written = run.journal.as_ref();
            written.is_some_and(|written| written.sha256 == journal.sha256)
        };
        let (now, master) = (&self.run.before, shown(&self.master));
        let its: Vec<&Run> = self.runs.iter().filter(is_its).collect();
        if its.iter().any(|run| run.after == *now) {
            return None;
        }
        let Some(last) = its.last() else {
            let left = self.runs.iter().rfind(|run| run.after == *now)?;
            let (command, time) = (&left.command, &left.time);
            return Some(format!(
                "the {command} of {time}, which left {master} as it is, did not write this journal"
            ));
        };
        let batch = format!("the batch of {}, whose journal this is", last.time);
        Some(match its.iter().any(|run| run.before == *now) {
            true => format!("{master} is what it was before {batch}: there is nothing to take back"),
            false => format!("{master} was changed since {batch}: what was changed since in the rows of the batch would be lost"),
        })
    }

    /// The log with the run in it, which leaves these rows.
    pub fn finish(mut self, summary: &Summary, rows: &[u8]) -> Vec<u8> {
        self.run.status = summary.status() as u64;
        self.run.counts = summary.counts();
        self.run.after = master_print(rows);
        // a list takes everything
        let _ = self.run.put(&mut self.log);
        self.log
    }
}
