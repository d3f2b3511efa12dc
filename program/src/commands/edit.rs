//! edit: a batch that leads a case of a master to wanted values.

use fantanolive::{find, Refusal, RECORD};

use crate::arguments::Arguments;
use crate::commands::changes::Changes;
use crate::commands::keys::{one_or_lines, Key};
use crate::commands::list::{read_list, with_list};
use crate::commands::master::{notes_of, read_master};
use crate::commands::records::{key_of, report, to_charset};
use crate::failure::{Failure, Status};
use crate::files::outputs::{Outputs, Wanted};
use crate::progress::Progress;
use crate::records::case_change::CaseChange;
use crate::records::columns::row;
use crate::records::control_record::batch_of;
use crate::report::case_notes::of_wanted;
use crate::report::notes::{self, refused};
use crate::report::summary::Summary;

pub fn run(arguments: &Arguments, progress: &Progress) -> Result<Status, Failure> {
    let changes = Changes::of(arguments)?;
    let charset = arguments.charset();
    let wanted = Wanted {
        state: false,
        made: &["--out"],
        inputs: &with_list(arguments, &[arguments.path(0)]),
    };
    let outputs = Outputs::open(arguments, &wanted)?;
    let key = one_key(arguments)?;
    let locals = read_list(arguments, charset, progress)?;
    let (row, place, rows) = row_of(arguments, progress, &key)?;
    let change = CaseChange {
        wanted: changes.made_to(&row),
        row,
        locals: locals.bytes.clone(),
    };
    let records = change.records().map_err(|refusal| {
        let notes = match refusal {
            Refusal::WrongLocals => notes::of_locals(&locals),
            _ => notes_on(arguments, &change, refusal),
        };
        refused(refusal, notes)
    })?;
    let state = row::STATE.of(&change.row);
    let (mut batch, _) =
        batch_of(state, &records).map_err(|refusal| refused(refusal, Vec::new()))?;
    to_charset(&mut batch, charset)?;
    let staged = vec![outputs.stage_records("--out", progress, &batch, RECORD)?];
    let summary = Summary::new("edit", Status::Done)
        .text("key", key_of(arguments, &change.row))
        .place("row", place + 1)
        .number("rows", rows)
        .number("records", (records.len() / RECORD) as u64)
        .placed(outputs.put_in_place(staged)?);
    report(arguments, progress, &summary, &change, &records)
}

/// What is known of a wanted row that was refused: where no list is given, no local code but 000 is in it.
fn notes_on(arguments: &Arguments, change: &CaseChange, refusal: Refusal) -> Vec<String> {
    let mut notes = of_wanted(change, refusal);
    let of_code = || change.refused_fields(refusal).contains(&row::LOCAL_CODE);
    if refusal == Refusal::NoRecords && !arguments.flag("--locals") && of_code() {
        let note = "--local-code: the list of local codes is missing: give it with --locals FILE";
        notes.push(note.to_string());
    }
    notes
}

/// The key that is given, or the one line of standard input.
fn one_key(arguments: &Arguments) -> Result<Key, Failure> {
    let mut keys = one_or_lines(arguments)?;
    match (keys.pop(), keys.is_empty()) {
        (Some(key), true) => Ok(key),
        _ => Err(Failure::File(
            "standard input has several keys; edit takes one".to_string(),
        )),
    }
}

/// The row of a key, its place, the first being 0, and how many rows there are.
fn row_of(
    arguments: &Arguments,
    progress: &Progress,
    key: &Key,
) -> Result<(Vec<u8>, u64, u64), Failure> {
    let mut master = read_master(arguments, 0, progress)?;
    progress.now("finding the case");
    let rows = master.records();
    let place = find(&master.bytes, rows, key.bytes()).map_err(|refusal| {
        let full = arguments.flag("--full");
        refused(refusal, notes_of(refusal, &mut master, full))
    })?;
    Ok((master.record(place as usize).to_vec(), place, rows as u64))
}
