//! records: the records that lead from a row to a wanted row.

use fantanolive::{Refusal, KEY, RECORD, ROW};

use crate::arguments::Arguments;
use crate::code_page::{convert, Charset};
use crate::commands::list::{read_list, with_list};
use crate::commands::output::{form_of, print};
use crate::failure::{Failure, Status};
use crate::files::length;
use crate::files::outputs::{Outputs, Wanted};
use crate::files::read::{read, Input};
use crate::progress::Progress;
use crate::records::case_change::CaseChange;
use crate::records::columns::row;
use crate::records::kinds::{BATCH, ONE_ROW};
use crate::report::case_notes::{of_wanted, Changes};
use crate::report::notes::{self, refused};
use crate::report::summary::Summary;

pub fn run(arguments: &Arguments, progress: &Progress) -> Result<Status, Failure> {
    let charset = arguments.charset();
    let wanted = Wanted {
        state: false,
        made: &["--out"],
        inputs: &with_list(arguments, &[arguments.path(0), arguments.path(1)]),
    };
    let outputs = Outputs::open(arguments, &wanted)?;
    let row_of = |number| read(arguments.path(number), &ONE_ROW, Charset::Ebcdic, progress);
    let (mut row, mut wanted) = (row_of(0)?, row_of(1)?);
    let locals = read_list(arguments, charset, progress)?;
    let change = CaseChange {
        row: row.bytes.clone(),
        wanted: wanted.bytes.clone(),
        locals: locals.bytes.clone(),
    };
    let records = change.records().map_err(|refusal| {
        let full = arguments.flag("--full");
        let notes = match refusal {
            Refusal::WrongLocals => notes::of_locals(&locals),
            Refusal::UnsoundRow if change.is_of_row(refusal) => of_row(&mut row, full),
            Refusal::UnsoundRow => of_row(&mut wanted, full),
            _ => of_wanted(&change, refusal),
        };
        refused(refusal, notes)
    })?;
    let mut out = records.clone();
    to_charset(&mut out, charset)?;
    let staged = vec![outputs.stage_records("--out", progress, &out, RECORD)?];
    let summary = Summary::new("records", Status::Done)
        .text("key", key_of(arguments, &change.row))
        .number("records", (records.len() / RECORD) as u64)
        .placed(outputs.put_in_place(staged)?);
    report(arguments, progress, &summary, &change, &records)
}

/// The key of a row as it is shown.
pub fn key_of(arguments: &Arguments, row: &[u8]) -> String {
    let mut key = String::new();
    let fields = [row::STATE, row::SSN, row::CASE_TYPE];
    form_of(arguments, Charset::Ebcdic).put_key(&fields, &row[..KEY], &mut key);
    key
}

/// Notes on a row that was refused by 4: its length, or the row itself.
fn of_row(input: &mut Input, full: bool) -> Vec<String> {
    match input.bytes.len() {
        ROW => notes::of_rows(input, 1, full),
        _ => length::of_length(input),
    }
}

/// Turns records into ASCII where they are to be. A case ID may hold other bytes than characters.
pub fn to_charset(records: &mut [u8], charset: Charset) -> Result<(), Failure> {
    if charset == Charset::Ebcdic {
        return Ok(());
    }
    convert(records, charset).map_err(|place| {
        let byte = usize::try_from(place).map_or(0, |at| records[at]);
        let note = length::place_note(place, byte, Some(&BATCH));
        let note =
            format!("the records in EBCDIC: {note}, as it stands in the row; leave --ascii out");
        refused(Refusal::NoCounterpart, vec![note])
    })
}

/// Prints what was done, and what each record changes.
pub fn report(
    arguments: &Arguments,
    progress: &Progress,
    summary: &Summary,
    change: &CaseChange,
    records: &[u8],
) -> Result<Status, Failure> {
    let changes = Changes {
        change,
        records,
        form: form_of(arguments, Charset::Ebcdic),
    };
    print(
        arguments,
        progress,
        summary,
        |screen| changes.put_text(screen),
        |json| changes.put_json(json),
    )
}
