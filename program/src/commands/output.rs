//! A report printed as text or as JSON.

use std::borrow::Cow;
use std::io::{self, Write};

use crate::arguments::Arguments;
use crate::code_page::Charset;
use crate::failure::{Failure, Status};
use crate::files::replace::has_changed;
use crate::mask::masked;
use crate::progress::Progress;
use crate::records::field::{Form, Placeholder};
use crate::report::json::Json;
use crate::report::screen::{printable, report_output, Output, Screen, Style};
use crate::report::summary::Summary;

/// Prints a summary and what goes with it, as text or as members of one JSON object; with --quiet the text is the summary's
/// heading alone. The answer is the summary's status.
pub fn print(
    arguments: &Arguments,
    progress: &Progress,
    summary: &Summary,
    text: impl FnOnce(&mut Screen<Output>) -> io::Result<()>,
    members: impl FnOnce(&mut Json<&mut Output>) -> io::Result<()>,
) -> Result<Status, Failure> {
    let text = |screen: &mut Screen<Output>| {
        if arguments.flag("--quiet") {
            return summary.put_heading(screen);
        }
        summary.put_text(screen)?;
        text(screen)
    };
    let members = |json: &mut Json<&mut Output>| {
        summary.put_json(json)?;
        members(json)
    };
    printed(arguments, progress, text, members)?;
    warn(arguments, summary);
    Ok(summary.status())
}

/// Prints a summary alone.
pub fn print_summary(
    arguments: &Arguments,
    progress: &Progress,
    summary: &Summary,
) -> Result<Status, Failure> {
    print(arguments, progress, summary, |_| Ok(()), |_| Ok(()))
}

/// Prints a summary and notes.
pub fn print_with_notes(
    arguments: &Arguments,
    progress: &Progress,
    summary: &Summary,
    notes: &[String],
) -> Result<Status, Failure> {
    print(
        arguments,
        progress,
        summary,
        |screen| {
            let mut notes = notes.iter();
            notes.try_for_each(|note| screen.wrapped(Style::Plain, "  ", note, 4))
        },
        |json| put_notes(json, notes),
    )
}

/// The member of an object for notes.
pub fn put_notes<W: Write>(json: &mut Json<W>, notes: &[String]) -> io::Result<()> {
    json.name("notes")?;
    json.begin_array()?;
    notes.iter().try_for_each(|note| json.text(note))?;
    json.end_array()
}

/// How fields are written: SSNs whole with --full, other bytes than characters in the way of text or JSON.
pub fn form_of(arguments: &Arguments, charset: Charset) -> Form {
    let placeholder = if arguments.flag("--json") {
        Placeholder::Hex
    } else {
        Placeholder::Dot
    };
    Form::new(charset, placeholder, arguments.flag("--full"))
}

/// Says on standard error what went wrong when the files were in place; a JSON object has it in itself.
pub fn warn(arguments: &Arguments, summary: &Summary) {
    if let Some(warning) = summary.warned().filter(|_| !arguments.flag("--json")) {
        let command = summary.command();
        let warning = printable(warning);
        let warning = match arguments.flag("--full") {
            true => warning,
            false => Cow::Owned(masked(&warning).into_owned()),
        };
        let _ = writeln!(io::stderr(), "fantanolive: {command}: {warning}");
    }
}

/// Prints text, or one JSON object with the members given. A reader that went away has read what it wanted, but where a file was
/// changed its list of rejects may be lost.
pub fn printed(
    arguments: &Arguments,
    progress: &Progress,
    text: impl FnOnce(&mut Screen<Output>) -> io::Result<()>,
    members: impl FnOnce(&mut Json<&mut Output>) -> io::Result<()>,
) -> Result<(), Failure> {
    progress.over();
    let (full, to_error) = (arguments.flag("--full"), arguments.prints_file());
    let done = if arguments.flag("--json") {
        let mut out = report_output(to_error);
        put_object(&mut out, full, members).and_then(|()| out.flush())
    } else {
        let mut screen = Screen::of_report(to_error).full(full);
        text(&mut screen).and_then(|()| screen.flush())
    };
    let changed = has_changed();
    match done {
        Err(error) if changed || error.kind() != io::ErrorKind::BrokenPipe => {
            Err(Failure::Output { error, changed })
        }
        _ => Ok(()),
    }
}

fn put_object(
    out: &mut Output,
    full: bool,
    members: impl FnOnce(&mut Json<&mut Output>) -> io::Result<()>,
) -> io::Result<()> {
    let mut json = Json::new(out).full(full);
    json.begin_object()?;
    members(&mut json)?;
    json.end_object()?;
    json.finish()
}
