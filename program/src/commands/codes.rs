//! codes: the local codes of a state, as a list for apply.

use fantanolive::{Refusal, LOCAL_CODE};

use crate::arguments::Arguments;
use crate::code_page::{argument, convert, Charset};
use crate::commands::output::print_summary;
use crate::failure::{Failure, Status};
use crate::files::outputs::{Outputs, Wanted};
use crate::files::read::read;
use crate::progress::Progress;
use crate::records::kinds::TABLE;
use crate::report::notes;
use crate::report::summary::Summary;

pub fn run(arguments: &Arguments, progress: &Progress) -> Result<Status, Failure> {
    let wanted = Wanted {
        state: false,
        made: &["--out"],
        inputs: &[arguments.path(0)],
    };
    let outputs = Outputs::open(arguments, &wanted)?;
    let table = read(arguments.path(0), &TABLE, Charset::Ebcdic, progress)?;
    let records = table.records();
    let state = arguments.state().unwrap_or_default();
    let mut out = vec![0; LOCAL_CODE * records];
    progress.now("writing the codes of the state");
    let codes =
        fantanolive::contacts_codes(&table.bytes, records, &argument(state.as_bytes()), &mut out)
            .map_err(|refusal| match refusal {
            Refusal::WrongContacts => notes::refused(refusal, notes::of_table(&table)),
            _ => notes::refused(refusal, Vec::new()),
        })?;
    out.truncate(LOCAL_CODE * codes as usize);
    if arguments.charset().is_ascii() {
        // the codes are digits
        let _ = convert(&mut out, Charset::Ascii);
    }
    let staged = vec![outputs.stage_records("--out", progress, &out, LOCAL_CODE)?];
    let placed = outputs.put_in_place(staged)?;
    let mut summary = Summary::new("codes", Status::Done);
    if codes == 0 {
        let what = format!("carried out, but the table has no local code of {state}");
        summary = summary.verdict(what);
    }
    let summary = summary
        .text("state", state)
        .number("records", records as u64)
        .number("codes", codes)
        .placed(placed);
    print_summary(arguments, progress, &summary)
}
