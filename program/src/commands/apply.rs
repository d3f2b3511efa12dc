//! apply and check: a batch judged, and applied.

use std::cell::RefCell;
use std::path::Path;

use fantanolive::{journal_size, Counts, Refusal, ERRORS, RECORD, ROW};

use crate::arguments::Arguments;
use crate::code_page::{convert, Charset};
use crate::commands::master::{read_master, swapped};
use crate::commands::output::{form_of, print};
use crate::commands::report_files::{self, with_reports};
use crate::failure::{counted, shown, Failure, Status};
use crate::files::length;
use crate::files::outputs::{expect, Outputs, Wanted};
use crate::files::read::{read, Input};
use crate::files::replace::Staged;
use crate::files::target::Target;
use crate::log::record::{previous_run, Record};
use crate::memory::zeros;
use crate::progress::Progress;
use crate::records::address_faults::AddressFaults;
use crate::records::columns::control;
use crate::records::field::{Form, Placeholder};
use crate::records::kinds::{BATCH, LOCALS};
use crate::records::room::{adds_in, nearly_full, note_of};
use crate::report::html::Page;
use crate::report::listing::Listing;
use crate::report::summary::Summary;
use crate::report::verdicts::Verdicts;
use crate::report::verdicts_sheet::{chart_of, VerdictsSheet};
use crate::report::{batch_notes, dollars, notes, verdicts_json, verdicts_text};

/// A batch that was carried out in memory.
struct Judged {
    batch: Input,
    master: Input,
    rows_before: usize,
    verdicts: Vec<u64>,
    rejects: Vec<u8>,
    /// Where one is asked for.
    journal: Option<Vec<u8>>,
    counts: Counts,
}

pub fn check(arguments: &Arguments, progress: &Progress) -> Result<Status, Failure> {
    let master = Target::of(arguments.path(0))?;
    expect(&master, arguments)?;
    let locals = Path::new(arguments.needed("--locals"));
    let wanted = Wanted {
        state: false,
        made: &with_reports(arguments, &[]),
        inputs: &[arguments.path(0), arguments.path(1), locals],
    };
    let outputs = Outputs::open(arguments, &wanted)?;
    let files = Files::read(arguments, progress)?;
    let before = previous_run("apply", &master, &files.master, &files.batch)?;
    let judged = files.judge(arguments, progress)?;
    let against = before.against("applied", arguments.path(0), arguments.flag("--again"));
    let mut summary = judged.summary("check", against.as_deref()).would_be();
    if against.is_some() {
        summary = summary.stopped();
    }
    if let Some(time) = before.time() {
        summary = summary.text("applied before", time);
    }
    let verdicts = judged.verdicts(arguments, Charset::Ebcdic);
    let staged = stage_reports(&outputs, arguments, progress, &summary, &verdicts)?;
    let summary = summary.placed(outputs.put_in_place(staged)?);
    report(arguments, progress, &summary, &verdicts)
}

pub fn apply(arguments: &Arguments, progress: &Progress) -> Result<Status, Failure> {
    let made: &[&'static str] = match arguments.flag("--journal") {
        true => &["--rejects", "--journal"],
        false => &["--rejects"],
    };
    let wanted = Wanted {
        state: true,
        made: &with_reports(arguments, made),
        inputs: &[arguments.path(1), Path::new(arguments.needed("--locals"))],
    };
    let outputs = Outputs::open(arguments, &wanted)?;
    let files = Files::read(arguments, progress)?;
    let mut record = Record::begin("apply", outputs.master(), &files.master, &files.inputs())?;
    record.see_not_taken(arguments, &files.batch)?;
    let mut judged = files.judge(arguments, progress)?;

    let charset = arguments.charset();
    judged.write_rejects_in(charset)?;
    let rows = &judged.master.bytes[..judged.counts.rows as usize * ROW];
    let summary = judged.summary("apply", None);
    let mut staged = vec![outputs.stage_records("--rejects", progress, &judged.rejects, RECORD)?];
    if let Some(journal) = &judged.journal {
        record = record.with_journal(Path::new(arguments.needed("--journal")), journal);
        let file = outputs.stage_bytes("--journal", progress, journal)?;
        staged.push(file.before_others());
    }
    let verdicts = judged.verdicts(arguments, charset);
    staged.extend(stage_reports(
        &outputs, arguments, progress, &summary, &verdicts,
    )?);
    staged.push(outputs.stage_log(progress, &record.finish(&summary, rows))?);
    staged.push(outputs.stage_state(progress, rows)?);
    let summary = summary.placed(outputs.put_in_place(staged)?);
    report(arguments, progress, &summary, &verdicts)
}

/// What a batch is judged by.
struct Files {
    batch: Input,
    locals: Input,
    master: Input,
}

impl Files {
    fn read(arguments: &Arguments, progress: &Progress) -> Result<Files, Failure> {
        arguments.number("--year")?;
        Listing::of(arguments)?;
        let charset = arguments.charset();
        let locals_path = Path::new(arguments.needed("--locals"));
        let batch = read(arguments.path(1), &BATCH, charset, progress)?.into_ebcdic()?;
        let locals = read(locals_path, &LOCALS, charset, progress)?.into_ebcdic()?;
        let details = batch.records().saturating_sub(1);
        Ok(Files {
            master: read_master(arguments, details, progress)?,
            batch,
            locals,
        })
    }

    /// The inputs for the log; the batch is the one that is not to be applied twice.
    fn inputs(&self) -> [&Input; 2] {
        [&self.batch, &self.locals]
    }

    /// Applies the batch in memory.
    fn judge(mut self, arguments: &Arguments, progress: &Progress) -> Result<Judged, Failure> {
        let year = arguments.number("--year")?.unwrap_or_default();
        let details = self.batch.records().saturating_sub(1);
        let rows_before = self.master.records();
        let mut lent = Lent::of(details, arguments.flag("--journal"))?;
        progress.now(format!("judging {}", counted(details as u64, "record")));
        let counts = self.apply(year, &mut lent).map_err(|refusal| {
            let notes = self.notes_of(refusal, arguments.flag("--full"));
            notes::refused(refusal, notes)
        })?;
        let listed = lent.verdicts.iter().filter(|&&verdict| verdict != 0);
        lent.rejects.truncate(RECORD * (listed.count() + 1));
        Ok(Judged {
            batch: self.batch,
            master: self.master,
            rows_before,
            verdicts: lent.verdicts,
            rejects: lent.rejects,
            journal: lent.journal,
            counts,
        })
    }

    /// The call, with a journal or without; the journal is then as long as it is.
    fn apply(&mut self, year: u64, lent: &mut Lent) -> Result<Counts, Refusal> {
        let rows = self.master.records();
        let master = &mut self.master.bytes;
        let (batch, locals) = (&self.batch.bytes, &self.locals.bytes);
        let (verdicts, rejects) = (&mut lent.verdicts, &mut lent.rejects);
        let Some(journal) = &mut lent.journal else {
            return fantanolive::apply(master, rows, batch, locals, year, verdicts, rejects);
        };
        let (counts, length) = fantanolive::apply_journaled(
            master, rows, batch, locals, year, verdicts, rejects, journal,
        )?;
        journal.truncate(length as usize);
        Ok(counts)
    }

    /// What is known of the files where the batch is refused.
    fn notes_of(&mut self, refusal: Refusal, full: bool) -> Vec<String> {
        if let Some(swapped) = swapped(&self.master, &self.batch) {
            return vec![swapped];
        }
        let (batch, master) = (&self.batch, &mut self.master);
        let rows = master.records();
        match refusal {
            Refusal::WrongLocals => notes::of_locals(&self.locals),
            Refusal::WrongMaster => length::of_length(master),
            Refusal::UnsoundRow => notes::of_rows(master, rows, full),
            Refusal::NoRoom => {
                let adds = adds_in(&batch.bytes[..batch.bytes.len() - RECORD]);
                vec![note_of(&master.name(), rows as u64, adds)]
            }
            _ => batch_notes::of_batch(refusal, batch),
        }
    }
}

/// What the call writes besides the master.
struct Lent {
    verdicts: Vec<u64>,
    rejects: Vec<u8>,
    journal: Option<Vec<u8>>,
}

impl Lent {
    fn of(details: usize, with_journal: bool) -> Result<Lent, Failure> {
        let journal = with_journal.then(|| zeros(journal_size(details)));
        Ok(Lent {
            verdicts: zeros(details)?,
            rejects: zeros(RECORD * (details + 1))?,
            journal: journal.transpose()?,
        })
    }
}

/// What a person wants to know first of a batch; something may be against applying it.
fn verdict_of(command: &str, to_fix: u64, counts: &Counts, against: Option<&str>) -> String {
    let records = |count| counted(count, "record");
    let words = match (command, to_fix) {
        ("check", _) => readiness(to_fix, against),
        (_, 0) => "carried out, no record rejected".to_string(),
        _ => format!("carried out, {} rejected", records(to_fix)),
    };
    let warned = match counts.warned {
        0 => String::new(),
        warned => format!(", {} with a warning", records(warned)),
    };
    let free = nearly_full(counts.rows).map(|free| format!(", {} free", counted(free, "row")));
    format!("{words}{warned}{}", free.unwrap_or_default())
}

/// Whether a batch can be sent, and what is against it.
fn readiness(to_fix: u64, against: Option<&str>) -> String {
    let to_fix = match to_fix {
        0 => None,
        to_fix => Some(format!("{} to fix", counted(to_fix, "record"))),
    };
    let against = against.map(str::to_string);
    let reasons: Vec<String> = against.into_iter().chain(to_fix).collect();
    match &reasons[..] {
        [] => "ready to send".to_string(),
        reasons => format!("not ready: {}", reasons.join("; ")),
    }
}

impl Judged {
    /// Turns the reject file into the characters that are asked for.
    fn write_rejects_in(&mut self, charset: Charset) -> Result<(), Failure> {
        if !charset.is_ascii() {
            return Ok(());
        }
        convert(&mut self.rejects, charset).map_err(|place| {
            let note = format!("the reject file has no ASCII form: byte {place}");
            notes::refused(Refusal::NoCounterpart, vec![note])
        })
    }

    fn summary(&self, command: &'static str, against: Option<&str>) -> Summary {
        let to_fix = self.verdicts.iter().filter(|&v| v & ERRORS != 0).count() as u64;
        let form = Form::new(Charset::Ebcdic, Placeholder::Dot, false);
        let last = self.batch.last().unwrap_or_default();
        let mut summary = Summary::new(command, Status::of_rejects(to_fix > 0))
            .verdict(verdict_of(command, to_fix, &self.counts, against))
            .text("state", form.field(&control::STATE, last))
            .number("details", self.verdicts.len() as u64)
            .of_which("accepted", self.counts.accepted)
            .of_those("warned", self.counts.warned)
            .of_which("rejected", self.counts.rejected)
            .of_which("neither", self.counts.neither);
        for dollars in dollars::of_batch(&self.batch.bytes, &self.verdicts)
            .iter()
            .flatten()
        {
            let (accepted, rejected) = (dollars.accepted(), dollars.rejected);
            let parts = [("accepted", accepted), ("rejected", rejected)];
            summary = summary.sum(dollars.name, ("sent", dollars.sent), &parts);
        }
        let summary = summary
            .number("rows before", self.rows_before as u64)
            .number("rows", self.counts.rows);
        let summary = match nearly_full(self.counts.rows) {
            Some(free) => summary.number("rows free", free),
            None => summary,
        };
        match &self.journal {
            Some(journal) => summary.number("journal bytes", journal.len() as u64),
            None => summary,
        }
    }

    fn verdicts(&self, arguments: &Arguments, charset: Charset) -> Verdicts<'_> {
        Verdicts {
            batch: &self.batch.bytes,
            verdicts: &self.verdicts,
            rejects: &self.rejects,
            rows: &self.master.bytes[..self.counts.rows as usize * ROW],
            of_details: form_of(arguments, Charset::Ebcdic),
            of_rejects: form_of(arguments, charset),
            address: RefCell::new(AddressFaults::new()),
        }
    }
}

/// Writes the reports that are asked for.
fn stage_reports(
    outputs: &Outputs,
    arguments: &Arguments,
    progress: &Progress,
    summary: &Summary,
    verdicts: &Verdicts,
) -> Result<Vec<Staged<'static>>, Failure> {
    let listing = &Listing::of(arguments)?;
    let page = Page {
        about: report_files::about(arguments, &shown(arguments.path(1))),
        chart: (
            "Codes",
            report_files::chart(arguments, || chart_of(verdicts)),
        ),
        notes: Vec::new(),
        list: &VerdictsSheet { verdicts, listing },
        full: arguments.flag("--full"),
    };
    report_files::stage(outputs, arguments, progress, summary, &page)
}

fn report(
    arguments: &Arguments,
    progress: &Progress,
    summary: &Summary,
    verdicts: &Verdicts,
) -> Result<Status, Failure> {
    let listing = Listing::of(arguments)?;
    print(
        arguments,
        progress,
        summary,
        |screen| verdicts_text::put_text(verdicts, screen, &listing),
        |json| verdicts_json::put_json(verdicts, json, &listing),
    )
}
