//! take-back: a batch taken back with its journal.

use fantanolive::{Refusal, ROW};

use crate::arguments::Arguments;
use crate::code_page::Charset;
use crate::commands::master::{self, read_master};
use crate::commands::output::{form_of, print};
use crate::failure::{counted, Failure, Status};
use crate::files::outputs::{expect, Outputs, Wanted};
use crate::files::read::{read, Input};
use crate::files::target::Target;
use crate::log::history::TAKE_BACK;
use crate::log::record::Record;
use crate::progress::Progress;
use crate::records::kinds::JOURNAL;
use crate::report::differences::{Differences, Words};
use crate::report::journal_note::counts_of;
use crate::report::notes;
use crate::report::summary::Summary;

const WORDS: Words = Words {
    changed: ("row changed back", "rows changed back"),
    gone: ("row taken out", "rows taken out"),
    come: ("row put in", "rows put in"),
    members: ["changed_back", "taken_out", "put_in"],
};

/// A batch that was taken back in memory: the rows from before it, in the place of those at hand.
struct TakenBack {
    master: Input,
    rows_before: usize,
    rows: usize,
}

pub fn run(arguments: &Arguments, progress: &Progress) -> Result<Status, Failure> {
    if arguments.flag("--dry-run") {
        return dry_run(arguments, progress);
    }
    let wanted = Wanted {
        state: true,
        made: &[],
        inputs: &[arguments.path(1)],
    };
    let outputs = Outputs::open(arguments, &wanted)?;
    let (master, journal) = read_files(arguments, progress)?;
    let record = Record::begin(TAKE_BACK, outputs.master(), &master, &[&journal])?;
    let back = TakenBack::of(master, &journal, Some(&record), arguments, progress)?;
    let differences = back.differences()?;
    let summary = back.summary(&differences);
    let log = record.finish(&summary, back.rows());
    let staged = vec![
        outputs.stage_log(progress, &log)?,
        outputs.stage_state(progress, back.rows())?,
    ];
    let summary = summary.placed(outputs.put_in_place(staged)?);
    report(arguments, progress, &summary, &differences)
}

/// Says what would be put back.
fn dry_run(arguments: &Arguments, progress: &Progress) -> Result<Status, Failure> {
    let target = Target::of(arguments.path(0))?;
    expect(&target, arguments)?;
    let (master, journal) = read_files(arguments, progress)?;
    let record = Record::look(TAKE_BACK, &target, &master, &[&journal])?;
    let back = TakenBack::of(master, &journal, record.as_ref(), arguments, progress)?;
    let differences = back.differences()?;
    let summary = back.summary(&differences).would_be();
    report(arguments, progress, &summary, &differences)
}

fn read_files(arguments: &Arguments, progress: &Progress) -> Result<(Input, Input), Failure> {
    let journal = read(arguments.path(1), &JOURNAL, Charset::Ebcdic, progress)?;
    Ok((read_master(arguments, 0, progress)?, journal))
}

impl TakenBack {
    /// Takes the batch back in memory, where the log has nothing against it.
    fn of(
        mut master: Input,
        journal: &Input,
        record: Option<&Record>,
        arguments: &Arguments,
        progress: &Progress,
    ) -> Result<TakenBack, Failure> {
        progress.now("taking the batch back");
        let rows_before = master.records();
        let rows = fantanolive::take_back(&mut master.bytes, rows_before, &journal.bytes);
        let rows = rows.map_err(|refusal| {
            let full = arguments.flag("--full");
            notes::refused(
                refusal,
                notes_of(refusal, &mut master, journal, record, full),
            )
        })?;
        let against = record.and_then(Record::not_left);
        if let Some(words) = against.filter(|_| !arguments.flag("--anyway")) {
            let what = format!("{words}; --anyway does it all the same");
            return Err(Failure::file(&journal.path, what));
        }
        Ok(TakenBack {
            master,
            rows_before,
            rows: rows as usize,
        })
    }

    fn rows(&self) -> &[u8] {
        &self.master.bytes[..self.rows * ROW]
    }

    /// What differs between the rows of the file, which are read again, and those from before the batch.
    fn differences(&self) -> Result<Differences<'_>, Failure> {
        let read = |first: usize, rows: &mut [u8]| self.master.read_again(first * ROW, rows);
        Differences::between(self.rows_before, read, self.rows())
    }

    fn summary(&self, differences: &Differences) -> Summary {
        let summary = Summary::new(TAKE_BACK, Status::Done)
            .number("rows before", self.rows_before as u64)
            .number("rows", self.rows as u64)
            .number("rows changed back", differences.changed.len() as u64)
            .number("rows taken out", differences.gone.len() as u64);
        // no journal that apply wrote puts rows in
        match differences.come.len() {
            0 => summary,
            rows => summary.number("rows put in", rows as u64),
        }
    }
}

fn report(
    arguments: &Arguments,
    progress: &Progress,
    summary: &Summary,
    differences: &Differences,
) -> Result<Status, Failure> {
    let form = form_of(arguments, Charset::Ebcdic);
    print(
        arguments,
        progress,
        summary,
        |screen| differences.put_text(screen, &WORDS, &form),
        |json| differences.put_json(json, &WORDS, &form),
    )
}

/// What is known of the files where taking back is refused.
fn notes_of(
    refusal: Refusal,
    master: &mut Input,
    journal: &Input,
    record: Option<&Record>,
    full: bool,
) -> Vec<String> {
    if let Some(swapped) = master::swapped(master, journal) {
        return vec![swapped];
    }
    if refusal != Refusal::WrongJournal {
        return master::notes_of(refusal, master, full);
    }
    let rows = counted(master.records() as u64, "row");
    let mut notes = vec![counts_of(journal), format!("{}: {rows}", master.name())];
    notes.extend(record.and_then(Record::not_left));
    notes
}
