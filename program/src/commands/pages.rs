//! pages: the live cases of a master, page by page, for the printer.

use std::io::Write;

use fantanolive::{pages_size, PAGE_CASES, PAGE_LINE};

use crate::arguments::Arguments;
use crate::code_page::Charset;
use crate::commands::master::{notes_of, read_master};
use crate::commands::output::print_summary;
use crate::failure::{Failure, Status};
use crate::files::outputs::{Outputs, Wanted};
use crate::files::replace::WriteFailure;
use crate::memory::zeros;
use crate::progress::Progress;
use crate::records::field::{Form, Placeholder};
use crate::report::notes::refused;
use crate::report::summary::Summary;
use crate::terminal;

/// The lines of a full page: a heading, those of cases, and a foot.
const PAGE: usize = PAGE_CASES + 2;

/// Pages that are written at a time.
const PART: usize = 100;

pub fn run(arguments: &Arguments, progress: &Progress) -> Result<Status, Failure> {
    see_no_terminal(arguments)?;
    let wanted = Wanted {
        state: false,
        made: &["--out"],
        inputs: &[arguments.path(0)],
    };
    let outputs = Outputs::open(arguments, &wanted)?;
    let mut master = read_master(arguments, 0, progress)?;
    let rows = master.records();
    let mut out = zeros(pages_size(rows))?;
    progress.now("writing the pages");
    let pages = fantanolive::pages(&master.bytes, rows, &mut out)
        .map_err(|refusal| refused(refusal, notes_of(refusal, &mut master, false)))?;
    drop(master);
    let lines = written_lines(&out);
    out.truncate(PAGE_LINE * lines);
    let summary = Summary::new("pages", Status::Done)
        .number("rows", rows as u64)
        .of_which("live", lines as u64 - 2 * pages)
        .number("pages", pages);
    let staged = match arguments.flag("--text") {
        true => outputs.stage_made("--out", progress, |text| put_text(&out, text, progress))?,
        false => outputs.stage_bytes("--out", progress, &out)?,
    };
    let summary = summary.placed(outputs.put_in_place(vec![staged])?);
    print_summary(arguments, progress, &summary)
}

/// Pages hold SSNs whole: none are put on a screen unless that is asked for.
fn see_no_terminal(arguments: &Arguments) -> Result<(), Failure> {
    let is_shown = arguments.prints_file() && terminal::output_width().is_some();
    if is_shown && !arguments.flag("--full") {
        return Err(arguments.wrong("pages hold SSNs whole: name a file, or give --full"));
    }
    Ok(())
}

/// How many lines the call has written. Each begins with a character, and what is behind them is as it was lent.
fn written_lines(out: &[u8]) -> usize {
    let lines = out.chunks(PAGE_LINE);
    lines.take_while(|line| line[0] != 0).count()
}

/// Writes pages in ASCII: a line feed behind each line, whose last spaces go, and a form feed behind each page.
fn put_text(pages: &[u8], out: &mut dyn Write, progress: &Progress) -> Result<(), WriteFailure> {
    let form = Form::new(Charset::Ebcdic, Placeholder::Dot, true);
    let mut text = String::new();
    let mut done = 0;
    for some in pages.chunks(PAGE_LINE * PAGE * PART) {
        text.clear();
        for page in some.chunks(PAGE_LINE * PAGE) {
            for line in page.chunks(PAGE_LINE) {
                form.put_text(line, &mut text);
                text.push('\n');
            }
            text.push('\x0C');
        }
        out.write_all(text.as_bytes())?;
        done += some.len();
        progress.done(done, pages.len());
    }
    Ok(())
}
