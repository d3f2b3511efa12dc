//! control: a batch with the control record that its details ask for.

use fantanolive::{totals, Refusal, RECORD};

use crate::arguments::Arguments;
use crate::code_page::{argument, convert, Charset};
use crate::commands::output::print_with_notes;
use crate::failure::{counted, grouped, Failure, Status};
use crate::files::length;
use crate::files::outputs::{Outputs, Wanted};
use crate::files::read::{read, Input};
use crate::progress::Progress;
use crate::records::among_details::{control_records, of_other_states};
use crate::records::columns::control;
use crate::records::control_record::{control_record, fields_of, refusal_of};
use crate::records::field::{Form, Placeholder};
use crate::records::kinds::BATCH;
use crate::report::batch_notes::of_batch;
use crate::report::notes::refused;
use crate::report::summary::Summary;

/// How many control records among the details are listed.
const MOST: usize = 10;

pub fn run(arguments: &Arguments, progress: &Progress) -> Result<Status, Failure> {
    let charset = arguments.charset();
    let wanted = Wanted {
        state: false,
        made: &["--out"],
        inputs: &[arguments.path(0)],
    };
    let outputs = Outputs::open(arguments, &wanted)?;
    let mut batch = read(arguments.path(0), &BATCH, charset, progress)?.into_ebcdic()?;
    let notes = length::of_length(&batch);
    if !notes.is_empty() {
        return Err(refused(Refusal::WrongBatch, notes));
    }
    let form = Form::new(Charset::Ebcdic, Placeholder::Dot, false);
    let is_marked = |last: &[u8]| BATCH.marked(last, &form).is_some();
    let has_one = batch.last().is_some_and(is_marked);
    see_no_others(&batch, has_one)?;
    let state = state_of(arguments, &batch, has_one)?;
    let (wrong, notes) = what_is_wrong(&batch, has_one, &state, &form);
    let summary = put_right(&mut batch, has_one, &state, &form)?.verdict(wrong);
    if charset.is_ascii() {
        // the batch came from ASCII, and a control record is text
        let _ = convert(&mut batch.bytes, charset);
    }
    let staged = vec![outputs.stage_records("--out", progress, &batch.bytes, RECORD)?];
    let summary = summary.placed(outputs.put_in_place(staged)?);
    print_with_notes(arguments, progress, &summary, &notes)
}

/// The details, without the control record that is there.
fn details_of(batch: &Input, has_one: bool) -> &[u8] {
    let records = batch.records() - usize::from(has_one);
    &batch.bytes[..records * RECORD]
}

/// Sees that no control record stands among the details: several batches may stand one behind the other.
fn see_no_others(batch: &Input, has_one: bool) -> Result<(), Failure> {
    let others = control_records(details_of(batch, has_one));
    if others.is_empty() {
        return Ok(());
    }
    let note = |number: &usize| {
        let number = grouped(*number as u64);
        format!("record {number} looks like a control record: it has CTL in columns 3-5")
    };
    let mut notes: Vec<String> = others.iter().take(MOST).map(note).collect();
    if others.len() > MOST {
        notes.push(format!("and {} more", others.len() - MOST));
    }
    let next = "take it out, or give each batch a file of its own and `fantanolive merge` them";
    notes.push(next.to_string());
    let count = counted(others.len() as u64, "control record");
    Err(Failure::Stopped {
        message: format!("{}: {count} among the details", batch.name()),
        notes,
    })
}

/// Gives a batch the control record that its details ask for, in the place of the one that is there or behind them.
fn put_right(
    batch: &mut Input,
    has_one: bool,
    state: &[u8],
    form: &Form,
) -> Result<Summary, Failure> {
    if !has_one {
        batch.bytes.extend(argument(&[b' '; RECORD]));
    }
    let totals = totals(&batch.bytes).map_err(|refusal| refused(refusal, Vec::new()))?;
    let record = control_record(state, &totals).ok_or_else(|| {
        let what = "the amounts add up to more than eleven digits: cut the batch first";
        Failure::file(&batch.path, what)
    })?;
    let details = batch.bytes.len() - RECORD;
    batch.bytes[details..].copy_from_slice(&record);
    if let Some(refusal) = refusal_of(&batch.bytes) {
        return Err(refused(refusal, Vec::new()));
    }
    let mut summary = Summary::new("control", Status::Done)
        .text("state", form.field(&control::STATE, &record))
        .number("details", (details / RECORD) as u64);
    for (field, total) in fields_of(&totals) {
        summary = summary.number(field.name, total);
    }
    Ok(summary)
}

/// What the library says of the batch as it is, what becomes of its state, and what is known of it.
fn what_is_wrong(batch: &Input, has_one: bool, state: &[u8], form: &Form) -> (String, Vec<String>) {
    let new = form.field(&control::STATE, state);
    let last = batch.last().filter(|_| has_one);
    let old = last.map(|last| form.field(&control::STATE, last));
    let changed = old.filter(|old| *old != new);
    let changed = changed.map(|old| format!("the state is changed from '{old}' to '{new}'"));
    let (verdict, mut notes) = match (refusal_of(&batch.bytes), changed) {
        (None, None) => ("the control record was right".to_string(), Vec::new()),
        (None, Some(changed)) => (changed, Vec::new()),
        (Some(refusal), changed) => {
            let mut notes = of_batch(refusal, batch);
            notes.extend(changed);
            let wrong = refusal.text().wrong;
            (format!("the control record was wrong: {wrong}"), notes)
        }
    };
    if let Some((count, first)) = of_other_states(details_of(batch, has_one), state) {
        let all = counted((batch.records() - usize::from(has_one)) as u64, "detail");
        let (count, first) = (grouped(count as u64), grouped(first as u64));
        notes.push(format!(
            "{count} of {all} have another state than {new}, record {first} the first: `fantanolive check` says what becomes of them"
        ));
    }
    (verdict, notes)
}

/// The state that is given, that of the control record, or that of the first detail.
fn state_of(arguments: &Arguments, batch: &Input, has_one: bool) -> Result<Vec<u8>, Failure> {
    match arguments.state() {
        Some(state) if state.len() == 2 => Ok(argument(state.as_bytes())),
        Some(_) => Err(arguments.wrong("--state wants two letters")),
        None if has_one => Ok(control::STATE.of(batch.last().unwrap_or_default()).to_vec()),
        None => Ok(control::STATE.of(&batch.bytes).to_vec()),
    }
}
