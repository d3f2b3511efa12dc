//! build: a batch from a CSV file, with its control record.

use fantanolive::{Refusal, Totals, RECORD};

use crate::arguments::Arguments;
use crate::code_page::argument;
use crate::commands::output::print_with_notes;
use crate::commands::records::to_charset;
use crate::failure::{counted, shown, Failure, Status};
use crate::files::outputs::{Outputs, Wanted};
use crate::files::read::{open, unread};
use crate::progress::Progress;
use crate::records::columns::{detail, Kind};
use crate::records::control_record::batch_of;
use crate::records::csv_details::{Errors, Reader};
use crate::records::csv_fields::name_of;
use crate::records::csv_lines::{lines_of, Line};
use crate::records::csv_text::{other_separator, text_of};
use crate::report::csv::put_line;
use crate::report::notes::refused;
use crate::report::summary::Summary;

/// How many errors are told.
const MOST: usize = 10;

/// What takes values that are no digits.
const AS_IS: &str = "--as-is takes such values as they stand, for a batch that is to stay faulty";

pub fn run(arguments: &Arguments, progress: &Progress) -> Result<Status, Failure> {
    let template = arguments.flag("--template");
    let inputs = arguments.paths();
    match (inputs.len(), template) {
        (0, false) => return Err(arguments.wrong("FILE is missing, or --template")),
        (1, true) => return Err(arguments.wrong("--template takes no FILE")),
        (2.., _) => return Err(arguments.wrong("one FILE alone")),
        _ => {}
    }
    let wanted = Wanted {
        state: false,
        made: &["--out"],
        inputs: &inputs,
    };
    let outputs = Outputs::open(arguments, &wanted)?;
    if template {
        return write_template(arguments, progress, outputs);
    }
    let lines = read_lines(arguments, progress)?;
    let read = Reader::new(arguments.flag("--as-is")).details(&lines);
    let details = read.map_err(|errors| stopped(arguments, errors))?;
    let state = state_of(arguments, &details.bytes)?;
    let built = batch_of(&state, &details.bytes);
    let (mut batch, totals) = built.map_err(|refusal| not_built(refusal, arguments))?;
    to_charset(&mut batch, arguments.charset())?;
    let staged = vec![outputs.stage_records("--out", progress, &batch, RECORD)?];
    let records = (details.bytes.len() / RECORD) as u64;
    let summary = summary_of(records, &totals).placed(outputs.put_in_place(staged)?);
    print_with_notes(arguments, progress, &summary, &details.notes)
}

fn summary_of(records: u64, totals: &Totals) -> Summary {
    let summary = Summary::new("build", Status::Done)
        .number("details", records)
        .of_which("TANF", totals.tanf_count)
        .of_which("Non-TANF", totals.non_tanf_count);
    let summary = match records - totals.tanf_count - totals.non_tanf_count {
        0 => summary,
        others => summary.of_which("neither", others),
    };
    summary
        .number("TANF dollars", totals.tanf_amount)
        .number("Non-TANF dollars", totals.non_tanf_amount)
}

/// Writes the names of the columns that people fill.
fn write_template(
    arguments: &Arguments,
    progress: &Progress,
    outputs: Outputs,
) -> Result<Status, Failure> {
    let fields = detail::FIELDS.iter();
    let filled = fields.filter(|field| field.kind != Kind::Filler);
    let names: Vec<String> = filled.map(name_of).collect();
    let names: Vec<&str> = names.iter().map(String::as_str).collect();
    let staged = outputs.stage_made("--out", progress, |out| Ok(put_line(out, &names)?))?;
    let summary = Summary::new("build", Status::Done)
        .number("columns", names.len() as u64)
        .placed(outputs.put_in_place(vec![staged])?);
    print_with_notes(arguments, progress, &summary, &[])
}

fn read_lines(arguments: &Arguments, progress: &Progress) -> Result<Vec<Line>, Failure> {
    let path = arguments.path(0);
    progress.now(format!("reading {}", shown(path)));
    let failed = |error: std::io::Error| unread(path, &error);
    let mut bytes = Vec::new();
    let mut file = open(path).map_err(failed)?;
    std::io::Read::read_to_end(&mut file, &mut bytes).map_err(failed)?;
    let text = text_of(bytes).map_err(|what| Failure::file(path, what))?;
    if let Some(words) = other_separator(&text) {
        let what =
            format!("the columns seem to be parted by {words}: save the file with commas, as CSV");
        return Err(Failure::file(path, what));
    }
    lines_of(&text).map_err(|line| {
        let what =
            format!("line {line}: quotation marks are not closed, or something stands behind them");
        Failure::file(path, what)
    })
}

/// What is wrong in the lines of the file; nothing is written.
fn stopped(arguments: &Arguments, errors: Errors) -> Failure {
    let mut notes = errors.list;
    let count = notes.len() as u64;
    if notes.len() > MOST {
        notes.truncate(MOST);
        notes.push(format!("and {} more", count - MOST as u64));
    }
    if errors.of_digits {
        notes.push(AS_IS.to_string());
    }
    Failure::Stopped {
        message: format!("{}: {}", shown(arguments.path(0)), counted(count, "error")),
        notes,
    }
}

/// The state of the control record: the one that is given, or that of the first detail.
fn state_of(arguments: &Arguments, details: &[u8]) -> Result<Vec<u8>, Failure> {
    match arguments.state() {
        Some(state) if state.len() == 2 => Ok(argument(state.as_bytes())),
        Some(_) => Err(arguments.wrong("--state wants two letters")),
        None if details.is_empty() => {
            let what = "has no line but the names: give the state with --state";
            Err(Failure::file(arguments.path(0), what))
        }
        None => Ok(detail::STATE.of(details).to_vec()),
    }
}

fn not_built(refusal: Refusal, arguments: &Arguments) -> Failure {
    match refusal {
        Refusal::WrongAmount => Failure::file(
            arguments.path(0),
            "the amounts add up to more than eleven digits: make several batches",
        ),
        other => refused(other, Vec::new()),
    }
}
