//! reconcile: the reconciliation file of a state.

use std::os::unix::ffi::OsStrExt;

use fantanolive::{Refusal, RECORD};

use crate::arguments::Arguments;
use crate::code_page::{argument, convert, Charset};
use crate::commands::master::{notes_of, read_master};
use crate::commands::output::print_summary;
use crate::failure::{Failure, Status};
use crate::files::length::place_note;
use crate::files::outputs::{Outputs, Wanted};
use crate::memory::zeros;
use crate::progress::Progress;
use crate::records::columns::rct;
use crate::records::field::{Form, Placeholder};
use crate::records::kinds::RECONCILIATION;
use crate::report::notes::refused;
use crate::report::summary::Summary;

pub fn run(arguments: &Arguments, progress: &Progress) -> Result<Status, Failure> {
    let wanted = Wanted {
        state: false,
        made: &["--out"],
        inputs: &[arguments.path(0)],
    };
    let outputs = Outputs::open(arguments, &wanted)?;
    let mut master = read_master(arguments, 0, progress)?;
    let rows = master.records();
    let state = arguments.state().unwrap_or_default();
    let date = arguments.needed("--date");
    let mut out = zeros(RECORD * (rows + 1))?;
    progress.now("writing the records of the state");
    let (state_bytes, date_bytes) = (argument(state.as_bytes()), argument(date.as_bytes()));
    let records = fantanolive::reconcile(&master.bytes, rows, &state_bytes, &date_bytes, &mut out)
        .map_err(|refusal| refused(refusal, notes_of(refusal, &mut master, false)))?;
    drop(master);
    out.truncate(RECORD * (records as usize + 1));
    let form = Form::new(Charset::Ebcdic, Placeholder::Dot, false);
    let last = &out[records as usize * RECORD..];
    let summary = Summary::new("reconcile", Status::Done)
        .text("state", state)
        .text("date", date.to_string_lossy())
        .number("records", records)
        .of_which("TANF", number(&form.field(&rct::TANF, last)))
        .of_which("Non-TANF", number(&form.field(&rct::NON_TANF, last)));
    if arguments.charset().is_ascii() {
        let converted = convert(&mut out, Charset::Ascii);
        converted.map_err(|place| no_ascii(place, &out))?;
    }
    let staged = vec![outputs.stage_records("--out", progress, &out, RECORD)?];
    let summary = summary.placed(outputs.put_in_place(staged)?);
    print_summary(arguments, progress, &summary)
}

/// A count as the RCT record has it.
fn number(digits: &str) -> u64 {
    digits.parse().unwrap_or_default()
}

/// A byte of a row that has no counterpart in ASCII.
fn no_ascii(place: u64, out: &[u8]) -> Failure {
    let byte = usize::try_from(place).map_or(0, |at| out[at]);
    let note = place_note(place, byte, Some(&RECONCILIATION));
    let note = format!("the file in EBCDIC: {note}, as it stands in the master; leave --ascii out");
    refused(Refusal::NoCounterpart, vec![note])
}
