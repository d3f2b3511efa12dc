//! export: the records of a file as CSV, a line of names first.

use std::io::Write;

use fantanolive::RECORD;

use crate::arguments::Arguments;
use crate::code_page::Charset;
use crate::commands::output::print_summary;
use crate::commands::show::{kind_of, read_kind};
use crate::failure::{Failure, Status};
use crate::files::length::of_length;
use crate::files::outputs::{Outputs, Wanted};
use crate::files::read::Input;
use crate::files::replace::WriteFailure;
use crate::progress::Progress;
use crate::records::columns::{control, Layout};
use crate::records::control_record::control_record;
use crate::records::csv_digits::wrong_digits;
use crate::records::csv_fields::{cell_of, names_of};
use crate::records::field::{Form, Placeholder};
use crate::records::kinds::BATCH;
use crate::report::csv::put_line;
use crate::report::summary::Summary;
use crate::terminal;

pub fn run(arguments: &Arguments, progress: &Progress) -> Result<Status, Failure> {
    see_no_terminal(arguments)?;
    let kind = kind_of(arguments)?;
    let wanted = Wanted {
        state: false,
        made: &["--out"],
        inputs: &[arguments.path(1)],
    };
    let outputs = Outputs::open(arguments, &wanted)?;
    let input = read_kind(arguments, kind, progress)?;
    let notes = of_length(&input);
    if input.length > 0 && !notes.is_empty() {
        return Err(Failure::File(notes.join("; ")));
    }
    let form = Form::new(input.charset, Placeholder::Hex, true);
    let is_marked = |last: &[u8]| kind.marked(last, &form).is_some();
    let has_last = input.last().is_some_and(is_marked);
    let records = input.records() - usize::from(has_last);
    let mut fits = true;
    let staged = outputs.stage_made("--out", progress, |out| {
        fits = put_records(&input, records, &form, out, progress)?;
        Ok(())
    })?;
    let mut summary = Summary::new("export", Status::Done)
        .text("kind", kind.name)
        .number("records", records as u64);
    if has_last {
        summary = summary.text("last record", words_of_last(&input, fits));
    }
    let summary = summary.placed(outputs.put_in_place(vec![staged])?);
    print_summary(arguments, progress, &summary)
}

/// A file of records holds SSNs whole: none are put on a screen unless that is asked for.
fn see_no_terminal(arguments: &Arguments) -> Result<(), Failure> {
    let is_shown = arguments.prints_file() && terminal::output_width().is_some();
    if is_shown && !arguments.flag("--full") {
        return Err(arguments.wrong("records hold SSNs whole: name a file, or give --full"));
    }
    Ok(())
}

/// Writes the records. The answer is whether `build` takes them, were they details, without --as-is.
fn put_records(
    input: &Input,
    records: usize,
    form: &Form,
    out: &mut dyn Write,
    progress: &Progress,
) -> Result<bool, WriteFailure> {
    let fields = input.kind.fields;
    let mut fits = true;
    let mut buffer = std::io::BufWriter::with_capacity(1 << 16, out);
    let names = names_of(fields);
    let names: Vec<&str> = names.iter().map(String::as_str).collect();
    put_line(&mut buffer, &names)?;
    for number in 0..records {
        let record = input.record(number);
        let cells: Vec<String> = fields
            .iter()
            .map(|field| cell_of(form, field, record))
            .collect();
        let cells: Vec<&str> = cells.iter().map(String::as_str).collect();
        fits = fits && is_detail(fields, &cells);
        put_line(&mut buffer, &cells)?;
        if number % 10_000 == 0 {
            progress.done(number, records);
        }
    }
    buffer.flush()?;
    Ok(fits)
}

/// Whether `build` takes a row of cells without --as-is.
fn is_detail(fields: Layout, cells: &[&str]) -> bool {
    let mut pairs = fields.iter().zip(cells);
    let fits = pairs.all(|(field, cell)| wrong_digits(field, cell).is_none());
    fits && cells.iter().any(|cell| !cell.trim().is_empty())
}

/// What became of the last record, which is no line of the CSV file.
fn words_of_last(input: &Input, fits: bool) -> String {
    let is_batch = input.kind.name == BATCH.name && input.charset == Charset::Ebcdic;
    let Some(totals) = is_batch
        .then(|| fantanolive::totals(&input.bytes).ok())
        .flatten()
    else {
        return "left out".to_string();
    };
    let last = &input.bytes[input.bytes.len() - RECORD..];
    let built = control_record(control::STATE.of(last), &totals);
    let words = match (built.as_deref() == Some(last), fits) {
        (true, true) => "left out; `build` makes the same",
        (true, false) => "left out; `build --as-is` makes the same",
        (false, _) => "left out; it is not the one that `build` makes",
    };
    words.to_string()
}
