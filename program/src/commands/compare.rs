//! compare: a reconciliation file that was received against the one that a master gives.

use fantanolive::{find, find_many, Refusal, NO_PLACE, RECORD};

use crate::arguments::Arguments;
use crate::code_page::{argument, Charset};
use crate::commands::list::{read_list, with_list};
use crate::commands::master::{notes_of, read_master};
use crate::commands::output::{form_of, print};
use crate::commands::records::to_charset;
use crate::commands::report_files::{self, with_reports};
use crate::failure::{counted, headed, shown, Failure, Status};
use crate::files::length;
use crate::files::outputs::{Outputs, Wanted};
use crate::files::read::{read, Input};
use crate::files::replace::Staged;
use crate::memory::zeros;
use crate::progress::Progress;
use crate::records::columns::{rec, row};
use crate::records::compared::{key_of, Compared, Found, Key};
use crate::records::control_record::batch_of;
use crate::records::field::{Form, Placeholder};
use crate::records::kinds::RECONCILIATION;
use crate::records::received::notes_on;
use crate::records::towards_here::records_for;
use crate::report::comparison::{chart_of, Comparison};
use crate::report::html::Page;
use crate::report::listing::Listing;
use crate::report::notes::{of_last_record, of_locals, refused};
use crate::report::summary::Summary;

/// What is to be known of the batch.
const FOR_THEM: &str = "the batch is for the federal side: don't apply it to MASTER, which has these values; an M there takes the cents away, and one for a deleted case is rejected";

/// A date; REC records have none of it.
const DATE: &[u8] = b"20000101";

pub fn run(arguments: &Arguments, progress: &Progress) -> Result<Status, Failure> {
    let listing = Listing::of(arguments)?;
    let charset = arguments.charset();
    let outputs = open(arguments)?;
    let received = read_received(arguments, charset, progress)?;
    let locals = read_list(arguments, charset, progress)?;
    let mut master = read_master(arguments, 0, progress)?;
    let here = reconciled(arguments, &mut master, progress)?;
    let there = &received.bytes[..(received.records() - 1) * RECORD];
    progress.now("comparing the cases");
    let compared = Compared::of(&here[..here.len() - RECORD], there);
    let mut beside = Beside::of(arguments, &received, there);
    let mut summary = summary_of(arguments, &compared, !beside.notes.is_empty());
    let mut batch = Vec::new();
    if arguments.flag("--records") {
        let made = Made::of(&compared, &master, &locals)?;
        summary = made.counted(summary);
        batch = made.batch(arguments, charset)?;
        beside.notes.extend(made.notes(arguments));
        beside.left = made.left;
    }
    let mut staged = stage_reports(&outputs, arguments, progress, &summary, &compared, &beside)?;
    if arguments.flag("--records") {
        staged.push(outputs.stage_records("--records", progress, &batch, RECORD)?);
    }
    let summary = summary.placed(outputs.put_in_place(staged)?);
    let form = form_of(arguments, Charset::Ebcdic);
    let comparison = beside.comparison(&compared, form, &listing);
    print(
        arguments,
        progress,
        &summary,
        |screen| comparison.put_text(screen),
        |json| comparison.put_json(json),
    )
}

/// What the report has beside the cases.
struct Beside {
    notes: Vec<String>,
    /// For each case whether no record of the batch is its own; none where no batch is asked for.
    left: Vec<bool>,
}

impl Beside {
    fn of(arguments: &Arguments, received: &Input, records: &[u8]) -> Beside {
        let form = Form::new(Charset::Ebcdic, Placeholder::Dot, false);
        let last = received.last().unwrap_or_default();
        let state = arguments.state().unwrap_or_default();
        Beside {
            notes: notes_on(records, last, &state, &form),
            left: Vec::new(),
        }
    }

    fn comparison<'a>(
        &'a self,
        compared: &'a Compared<'a>,
        form: Form,
        listing: &'a Listing,
    ) -> Comparison<'a> {
        Comparison {
            compared,
            notes: &self.notes,
            left: &self.left,
            form,
            listing,
        }
    }
}

/// The files that are asked for.
fn open(arguments: &Arguments) -> Result<Outputs, Failure> {
    let with_records: &[&'static str] = match arguments.flag("--records") {
        true => &["--records"],
        false => &[],
    };
    let wanted = Wanted {
        state: false,
        made: &with_reports(arguments, with_records),
        inputs: &with_list(arguments, &[arguments.path(0), arguments.path(1)]),
    };
    Outputs::open(arguments, &wanted)
}

/// Writes the reports that are asked for.
fn stage_reports<'a>(
    outputs: &Outputs,
    arguments: &Arguments,
    progress: &Progress,
    summary: &Summary,
    compared: &Compared,
    beside: &Beside,
) -> Result<Vec<Staged<'a>>, Failure> {
    let full = arguments.flag("--full");
    let form = Form::new(Charset::Ebcdic, Placeholder::Dot, full);
    let listing = Listing::of(arguments)?;
    let comparison = beside.comparison(compared, form, &listing);
    let page = Page {
        about: report_files::about(arguments, &shown(arguments.path(1))),
        chart: (
            "Fields that differ",
            report_files::chart(arguments, || chart_of(compared)),
        ),
        notes: Vec::new(),
        list: &comparison,
        full,
    };
    let staged = report_files::stage(outputs, arguments, progress, summary, &page)?;
    Ok(staged)
}

/// The file that was received: records of 245 bytes, an RCT record last.
fn read_received(
    arguments: &Arguments,
    charset: Charset,
    progress: &Progress,
) -> Result<Input, Failure> {
    let input = read(arguments.path(1), &RECONCILIATION, charset, progress)?.into_ebcdic()?;
    let form = Form::new(Charset::Ebcdic, Placeholder::Dot, false);
    let is_marked = |record: &[u8]| RECONCILIATION.marked(record, &form).is_some();
    let mut notes = length::of_file(&input);
    if notes.is_empty() && !input.last().is_some_and(is_marked) {
        notes = of_last_record(&input, &[]);
    }
    match notes.is_empty() {
        true => Ok(input),
        false => Err(Failure::File(notes.join("; "))),
    }
}

/// The reconciliation file of the state, in EBCDIC.
fn reconciled(
    arguments: &Arguments,
    master: &mut Input,
    progress: &Progress,
) -> Result<Vec<u8>, Failure> {
    let rows = master.records();
    let mut out = zeros(RECORD * (rows + 1))?;
    progress.now("writing the records of the state");
    let state = argument(arguments.state().unwrap_or_default().as_bytes());
    let records = fantanolive::reconcile(&master.bytes, rows, &state, &argument(DATE), &mut out)
        .map_err(|refusal| refused(refusal, notes_of(refusal, master, false)))?;
    out.truncate(RECORD * (records as usize + 1));
    Ok(out)
}

fn summary_of(arguments: &Arguments, compared: &Compared, is_odd: bool) -> Summary {
    let found = compared.found.len() as u64;
    let mut verdict = match found {
        0 => "every case is the same".to_string(),
        1 => "1 case is not the same".to_string(),
        found => format!("{} are not the same", counted(found, "case")),
    };
    if is_odd {
        verdict += "; the received file is not what it says of itself";
    }
    let only_here = compared.count(|found| matches!(found, Found::OnlyHere(_)));
    let only_there = compared.count(|found| matches!(found, Found::OnlyThere(_)));
    let differing = compared.count(|found| matches!(found, Found::Differs(..)));
    let again = compared.count(|found| matches!(found, Found::Again(_)));
    let same = compared.same as u64;
    Summary::new("compare", Status::of_rejects(found > 0 || is_odd))
        .verdict(verdict)
        .text("state", arguments.state().unwrap_or_default())
        .sum(
            "cases here",
            ("all", same + differing + only_here),
            &[
                ("the same", same),
                ("differ", differing),
                ("only here", only_here),
            ],
        )
        .sum(
            "cases there",
            ("all", same + differing + only_there + again),
            &[
                ("the same", same),
                ("differ", differing),
                ("only there", only_there),
                ("again", again),
            ],
        )
}

/// A case there that differs or is not here: its place among those found, the number of its record, and the place of its row.
struct WithRow {
    at: usize,
    there: usize,
    row: u32,
}

/// The cases there that differ or are not here; those without a row in the master are left out.
fn rows_of(compared: &Compared, master: &Input) -> Result<Vec<WithRow>, Failure> {
    let case = |(at, found): (usize, &Found)| match *found {
        Found::Differs(_, there) | Found::OnlyThere(there) => {
            let key = key_of(compared.there(there));
            let is_sound = find(&[], 0, &key) != Err(Refusal::UnsoundKey);
            let row = NO_PLACE;
            is_sound.then_some((key, WithRow { at, there, row }))
        }
        _ => None,
    };
    let found = compared.found.iter().enumerate();
    let (keys, mut cases): (Vec<Key>, Vec<WithRow>) = found.filter_map(case).unzip();
    let mut places = zeros(keys.len())?;
    // the master was sound a moment ago, and the keys rise
    let _ = find_many(
        &master.bytes,
        master.records(),
        keys.as_flattened(),
        &mut places,
    );
    for (case, place) in cases.iter_mut().zip(places) {
        case.row = place;
    }
    cases.retain(|case| case.row != NO_PLACE);
    Ok(cases)
}

/// The records that lead the other side to the master.
struct Made {
    details: Vec<u8>,
    /// For each case whether it has no records, since none changes what differs or none leads there.
    left: Vec<bool>,
    /// How many of those have another local code there, and no records since theirs isn't in the list.
    of_list: u64,
}

impl Made {
    fn of(compared: &Compared, master: &Input, locals: &Input) -> Result<Made, Failure> {
        let mut made = Made {
            details: Vec::new(),
            left: vec![true; compared.found.len()],
            of_list: 0,
        };
        for case in rows_of(compared, master)? {
            let row = master.record(case.row as usize);
            let theirs = compared.there(case.there);
            match records_for(theirs, row, &locals.bytes) {
                Ok(records) if !records.is_empty() => {
                    made.details.extend(records);
                    made.left[case.at] = false;
                }
                Err(Refusal::WrongLocals) => {
                    return Err(refused(Refusal::WrongLocals, of_locals(locals)));
                }
                Err(Refusal::NoRecords) => {
                    let differs = rec::LOCAL_CODE.of(theirs) != row::LOCAL_CODE.of(row);
                    made.of_list += u64::from(differs);
                }
                _ => {}
            }
        }
        Ok(made)
    }

    fn counted(&self, summary: Summary) -> Summary {
        let without = self.left.iter().filter(|is_left| **is_left).count();
        summary
            .number("records", (self.details.len() / RECORD) as u64)
            .number("cases with records", (self.left.len() - without) as u64)
            .number("cases without records", without as u64)
    }

    /// What the batch is for, and what it lacks.
    fn notes(&self, arguments: &Arguments) -> Vec<String> {
        let mut notes = Vec::new();
        if !self.details.is_empty() {
            notes.push(FOR_THEM.to_string());
        }
        if self.of_list > 0 && !arguments.flag("--locals") {
            let cases = headed(self.of_list, ("case needs", "cases need"));
            notes.push(format!(
                "{cases} an L record, and no code is listed without --locals FILE: left to you"
            ));
        }
        notes
    }

    fn batch(&self, arguments: &Arguments, charset: Charset) -> Result<Vec<u8>, Failure> {
        let state = argument(arguments.state().unwrap_or_default().as_bytes());
        let batch = batch_of(&state, &self.details);
        let (mut batch, _) = batch.map_err(|refusal| refused(refusal, Vec::new()))?;
        to_charset(&mut batch, charset)?;
        Ok(batch)
    }
}
