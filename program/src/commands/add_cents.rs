//! add-cents: a master from before the cents gets 00 cents.

use fantanolive::Refusal;

use crate::arguments::Arguments;
use crate::commands::master::read_master;
use crate::commands::output::print_summary;
use crate::failure::{Failure, Status};
use crate::files::length;
use crate::files::outputs::{Outputs, Wanted};
use crate::files::read::Input;
use crate::log::record::Record;
use crate::progress::Progress;
use crate::report::notes;
use crate::report::summary::Summary;

pub fn run(arguments: &Arguments, progress: &Progress) -> Result<Status, Failure> {
    let wanted = Wanted {
        state: true,
        made: &[],
        inputs: &[],
    };
    let outputs = Outputs::open(arguments, &wanted)?;
    let mut master = read_master(arguments, 0, progress)?;
    let rows = master.records();
    let record = Record::begin("add-cents", outputs.master(), &master, &[])?;
    progress.now("adding the cents");
    fantanolive::add_cents(&mut master.bytes, rows)
        .map_err(|refusal| notes::refused(refusal, notes_of(refusal, &master)))?;
    let summary = Summary::new("add-cents", Status::Done).number("rows", rows as u64);
    let log = record.finish(&summary, &master.bytes);
    let staged = vec![
        outputs.stage_log(progress, &log)?,
        outputs.stage_state(progress, &master.bytes)?,
    ];
    let summary = summary.placed(outputs.put_in_place(staged)?);
    print_summary(arguments, progress, &summary)
}

fn notes_of(refusal: Refusal, master: &Input) -> Vec<String> {
    match refusal {
        Refusal::WrongMaster => length::of_length(master),
        Refusal::UnsoundRow => notes::of_old_rows(master, master.records()),
        _ => Vec::new(),
    }
}
