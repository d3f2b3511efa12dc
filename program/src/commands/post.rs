//! post: a weekly collection file posted to a master.

use fantanolive::{Refusal, LINE, ROW};

use crate::arguments::Arguments;
use crate::code_page::Charset;
use crate::commands::master::{self, read_master};
use crate::commands::output::{form_of, print};
use crate::commands::report_files::{self, with_reports};
use crate::failure::{counted, Failure, Status};
use crate::files::length;
use crate::files::outputs::{expect, Outputs, Wanted};
use crate::files::read::{read, Input};
use crate::files::replace::Staged;
use crate::files::target::Target;
use crate::log::record::{previous_run, Record};
use crate::memory::zeros;
use crate::progress::Progress;
use crate::records::columns::{line, Field};
use crate::records::field::{Form, Placeholder};
use crate::records::kinds::COLLECTIONS;
use crate::records::line_reasons::{self, Reason};
use crate::records::money::{total_notes, ClosedCase, Money};
use crate::report::html::Page;
use crate::report::listed::{Listed, PutReason};
use crate::report::listing::Listing;
use crate::report::notes;
use crate::report::post_totals::of_counts;
use crate::report::posting::{counts_of, Posting};
use crate::report::summary::Summary;

/// The members of a listed line in JSON.
const FIELDS: [(&str, Field); 7] = [
    ("state", line::STATE),
    ("ssn", line::SSN),
    ("case_type", line::CASE_TYPE),
    ("last_name", line::LAST_NAME),
    ("first_name", line::FIRST_NAME),
    ("collection", line::COLLECTION),
    ("adjustment", line::ADJUSTMENT),
];

/// The names of its columns in files.
const HEADS: [&str; 10] = [
    "Line",
    "State",
    "SSN",
    "Case type",
    "Last name",
    "First name",
    "Collection",
    "Adjustment",
    "Reason",
    "To fix",
];

/// A collection file that was posted in memory.
struct Posted {
    master: Input,
    file: Input,
    /// The numbers of the lines that are not posted, and why.
    listed: Vec<u32>,
    reasons: Vec<Reason>,
    money: Money,
    /// The cases that are closed.
    closed: Vec<ClosedCase>,
    /// What is noted of the last record.
    notes: Vec<String>,
}

pub fn run(arguments: &Arguments, progress: &Progress) -> Result<Status, Failure> {
    if arguments.flag("--dry-run") {
        return dry_run(arguments, progress);
    }
    let wanted = Wanted {
        state: true,
        made: &with_reports(arguments, &[]),
        inputs: &[arguments.path(1)],
    };
    let outputs = Outputs::open(arguments, &wanted)?;
    let (master, file) = read_files(arguments, progress)?;
    let record = Record::begin("post", outputs.master(), &master, &[&file])?;
    record.see_not_taken(arguments, &file)?;
    let posted = Posted::of(master, file, arguments, progress)?;
    let summary = posted.summary(None);
    let log = record.finish(&summary, &posted.master.bytes);
    let mut staged = posted.stage_reports(&outputs, arguments, progress, &summary)?;
    staged.push(outputs.stage_log(progress, &log)?);
    staged.push(outputs.stage_state(progress, &posted.master.bytes)?);
    let summary = summary.placed(outputs.put_in_place(staged)?);
    posted.report(arguments, progress, &summary)
}

/// Says what would be posted.
fn dry_run(arguments: &Arguments, progress: &Progress) -> Result<Status, Failure> {
    let target = Target::of(arguments.path(0))?;
    expect(&target, arguments)?;
    let wanted = Wanted {
        state: false,
        made: &with_reports(arguments, &[]),
        inputs: &[arguments.path(0), arguments.path(1)],
    };
    let outputs = Outputs::open(arguments, &wanted)?;
    let (master, file) = read_files(arguments, progress)?;
    let before = previous_run("post", &target, &master, &file)?;
    let posted = Posted::of(master, file, arguments, progress)?;
    let written = match with_reports(arguments, &[]).is_empty() {
        true => "nothing is written",
        false => "only the report is written",
    };
    let against = before.against("posted", arguments.path(0), arguments.flag("--again"));
    let mut summary = posted.summary(Some(written)).would_be();
    if let Some(against) = against {
        let verdict = format!("would be stopped: {against}; {written}");
        summary = summary.verdict(verdict).stopped();
    }
    if let Some(time) = before.time() {
        summary = summary.text("posted before", time);
    }
    let staged = posted.stage_reports(&outputs, arguments, progress, &summary)?;
    let summary = summary.placed(outputs.put_in_place(staged)?);
    posted.report(arguments, progress, &summary)
}

fn read_files(arguments: &Arguments, progress: &Progress) -> Result<(Input, Input), Failure> {
    Listing::of(arguments)?;
    let charset = arguments.charset();
    let file = read(arguments.path(1), &COLLECTIONS, charset, progress)?.into_ebcdic()?;
    Ok((read_master(arguments, 0, progress)?, file))
}

impl Posted {
    fn of(
        mut master: Input,
        file: Input,
        arguments: &Arguments,
        progress: &Progress,
    ) -> Result<Posted, Failure> {
        let (rows, lines) = (master.records(), file.records().saturating_sub(1));
        let mut list = zeros(lines)?;
        progress.now(format!("posting {}", counted(lines as u64, "line")));
        let listed = fantanolive::post(&mut master.bytes, rows, &file.bytes, &mut list)
            .map_err(|refusal| refused(refusal, &mut master, &file, arguments.flag("--full")))?;
        list.truncate(listed as usize);
        progress.now("adding up the money");
        let posted = line_reasons::Posted {
            lines: &file.bytes[..lines * LINE],
            listed: &list,
            rows: &master.bytes,
            read: &|row, bytes| master.read_again(row * ROW, bytes),
        };
        let (reasons, (money, closed)) = (posted.reasons()?, Money::of(&posted)?);
        let notes = total_notes(posted.lines, file.last().unwrap_or_default());
        Ok(Posted {
            listed: list,
            reasons,
            money,
            closed,
            notes,
            master,
            file,
        })
    }

    /// How many lines have each reason, for a chart.
    fn chart(&self) -> Vec<(String, u64, String)> {
        let bar =
            |(name, count, fix): (&str, u64, &str)| (name.to_string(), count, fix.to_string());
        counts_of(&self.reasons).into_iter().map(bar).collect()
    }

    fn put_reason(
        &self,
        form: &Form,
        place: usize,
        record: &[u8],
        out: &mut String,
    ) -> &'static str {
        let reason = &self.reasons[place];
        reason.put_words(form, record, out);
        reason.name()
    }

    /// What was done, or would be; a dry run says what is written.
    fn summary(&self, written: Option<&str>) -> Summary {
        let lines = self.file.records().saturating_sub(1) as u64;
        let listed = self.listed.len() as u64;
        let money = &self.money;
        Summary::new("post", Status::of_rejects(listed > 0))
            .verdict(verdict_of(listed, written))
            .number("rows", self.master.records() as u64)
            .number("lines", lines)
            .of_which("posted", lines - listed)
            .of_which("not posted", listed)
            .money_sum(
                "collections in file",
                ("in file", money.collected + money.not_posted[0]),
                &[
                    ("posted", money.collected),
                    ("not posted", money.not_posted[0]),
                ],
            )
            .money_sum(
                "adjustments in file",
                ("in file", money.adjusted + money.not_posted[1]),
                &[
                    ("posted", money.adjusted),
                    ("not posted", money.not_posted[1]),
                ],
            )
            .money_sum(
                "collections",
                ("collected", money.collected),
                &[("applied", money.applied()), ("excess", money.excess())],
            )
            .money("adjusted", money.adjusted)
            .money("balances before", money.before)
            .money("balances after", money.after)
            .text("equation", money.equation())
            .number("cases closed", money.closed)
            .number("cases with excess", money.with_excess)
    }

    /// The lines that are not posted, and the cases that are closed.
    fn posting<'a>(
        &'a self,
        arguments: &Arguments,
        (form, listing): (&'a Form, &'a Listing),
        reason: &'a PutReason<'a>,
        fix: &'a dyn Fn(usize) -> &'static str,
    ) -> Posting<'a> {
        let listed = Listed {
            heading: ("line not posted", "lines not posted"),
            member: "listed",
            numbers: &self.listed,
            file: &self.file,
            form: form_of(arguments, Charset::Ebcdic),
            put_line,
            fields: &FIELDS,
            heads: &HEADS,
            listing,
            reason,
            fix: Some(fix),
            notes: self.notes.clone(),
        };
        Posting {
            listed,
            reasons: &self.reasons,
            closed: &self.closed,
            money: &self.money,
            rows: &self.master.bytes,
            form,
            listing,
        }
    }

    /// Writes the reports that are asked for.
    fn stage_reports(
        &self,
        outputs: &Outputs,
        arguments: &Arguments,
        progress: &Progress,
        summary: &Summary,
    ) -> Result<Vec<Staged<'static>>, Failure> {
        let form = Form::new(Charset::Ebcdic, Placeholder::Dot, arguments.flag("--full"));
        let why =
            |place, record: &[u8], out: &mut String| self.put_reason(&form, place, record, out);
        let fix = |place: usize| self.reasons[place].fix();
        let listing = Listing::of(arguments)?;
        let posting = self.posting(arguments, (&form, &listing), &why, &fix);
        let page = Page {
            about: report_files::about(arguments, &self.file.name()),
            chart: (
                "Lines not posted",
                report_files::chart(arguments, || self.chart()),
            ),
            notes: self.notes.clone(),
            list: &posting,
            full: arguments.flag("--full"),
        };
        report_files::stage(outputs, arguments, progress, summary, &page)
    }

    fn report(
        &self,
        arguments: &Arguments,
        progress: &Progress,
        summary: &Summary,
    ) -> Result<Status, Failure> {
        let listing = Listing::of(arguments)?;
        let form = form_of(arguments, Charset::Ebcdic);
        let why =
            |place, record: &[u8], out: &mut String| self.put_reason(&form, place, record, out);
        let fix = |place: usize| self.reasons[place].fix();
        let posting = self.posting(arguments, (&form, &listing), &why, &fix);
        print(
            arguments,
            progress,
            summary,
            |screen| posting.put_text(screen),
            |json| posting.put_json(json),
        )
    }
}

/// What a person wants to know first of a posting.
fn verdict_of(listed: u64, written: Option<&str>) -> String {
    let lines = match listed {
        0 => "every line posted".to_string(),
        listed => format!("{} not posted", counted(listed, "line")),
    };
    match written {
        None => format!("carried out, {lines}"),
        Some(written) => format!("would be carried out, {lines}; {written}"),
    }
}

/// What is known of the files where posting is refused.
fn refused(refusal: Refusal, master: &mut Input, file: &Input, full: bool) -> Failure {
    if let Some(swapped) = master::swapped(master, file) {
        return notes::refused(refusal, vec![swapped]);
    }
    let notes = match refusal {
        Refusal::WrongFile => length::of_file(file),
        Refusal::WrongTotal => [length::of_file(file), of_counts(file)].concat(),
        _ => master::notes_of(refusal, master, full),
    };
    notes::refused(refusal, notes)
}

/// `OH*****6789N  SMITH, JOHN  collection 0.00  adjustment 1.00`.
fn put_line(form: &Form, record: &[u8], text: &mut String) {
    form.put_key(&[line::STATE, line::SSN, line::CASE_TYPE], record, text);
    text.push_str("  ");
    form.put_name(&line::LAST_NAME, &line::FIRST_NAME, record, text);
    text.push_str("  collection ");
    form.put(&line::COLLECTION, record, text);
    text.push_str("  adjustment ");
    form.put(&line::ADJUSTMENT, record, text);
}
