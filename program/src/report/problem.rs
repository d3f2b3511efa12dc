//! Refusals and problems: as text on standard error, or as a JSON object on standard output.

use std::io::{self, Write};

use fantanolive::{Refusal, Text, VERSION};

use crate::failure::{words, Failure, Status};
use crate::report::json::Json;
use crate::report::refusal_words::words_of;
use crate::report::screen::{report_output, Screen, Style};
use crate::report::summary::schema_of;
use crate::terminal;

/// How a problem is told: as JSON, with SSNs whole.
#[derive(Clone, Copy, Default)]
pub struct Form {
    pub as_json: bool,
    pub full: bool,
    /// Whether standard output is a file's.
    pub to_error: bool,
    /// What the files are in that were read, as it was given.
    pub ascii: bool,
    pub lines: bool,
}

/// Prints what is wrong. An error here has no place to go.
pub fn print(command: &str, failure: &Failure, form: Form) {
    let _ = if form.as_json {
        print_json(command, failure, form)
    } else {
        print_text(command, failure, form)
    };
}

/// The words of a refusal or code, indented below its first line.
pub fn put_words<W: Write>(screen: &mut Screen<W>, text: &Text) -> io::Result<()> {
    put_both(screen, text.location, text.mend)
}

fn put_both<W: Write>(screen: &mut Screen<W>, location: &str, fix: &str) -> io::Result<()> {
    screen.wrapped(Style::Plain, "  where:  ", location, 10)?;
    screen.wrapped(Style::Plain, "  to fix: ", fix, 10)
}

/// The words of a refusal for someone who runs the program, without hints on options that were given.
fn words_for(refusal: Refusal, form: Form) -> (&'static str, String) {
    let (location, fix) = match words_of(refusal) {
        Some(words) => (words.location, words.fix),
        None => (refusal.text().location, refusal.text().mend),
    };
    let is_followed = |hint: &&str| {
        let of_lines = hint.contains("--lines") && form.lines;
        let of_ascii = hint.contains("--ascii") && (form.ascii || form.lines);
        of_lines || of_ascii
    };
    let hints = fix.split("; ").filter(|hint| !is_followed(hint));
    (location, hints.collect::<Vec<_>>().join("; "))
}

/// The members of an object for the words of a refusal or code, behind its number.
pub fn put_json_words<W: Write>(json: &mut Json<W>, text: &Text) -> io::Result<()> {
    json.text_of("wrong", text.wrong)?;
    json.text_of("where", text.location)?;
    json.text_of("mend", text.mend)
}

fn print_text(command: &str, failure: &Failure, form: Form) -> io::Result<()> {
    let width = terminal::error_width();
    let colours = width.is_some() && terminal::takes_colours();
    let mut screen = Screen::new(io::stderr().lock(), width, colours).full(form.full);
    let start = match command {
        "" => "fantanolive: ".to_string(),
        command => format!("fantanolive: {command}: "),
    };
    match failure {
        Failure::Refused { refusal, notes } => {
            screen.wrapped(Style::Error, &start, &refusal.to_string(), 2)?;
            let (location, fix) = words_for(*refusal, form);
            put_both(&mut screen, location, &fix)?;
            put_notes(&mut screen, notes)
        }
        other => {
            // a message is one line, so that it can be looked for in a log; a terminal has it in several
            match width {
                None => screen.plain(&format!("{start}{}", message(other)))?,
                Some(_) => screen.wrapped(Style::Error, &start, &message(other), 2)?,
            }
            match other {
                Failure::Stopped { notes, .. } => put_notes(&mut screen, notes),
                _ => Ok(()),
            }
        }
    }
}

/// What is known of the files, and that they are as before.
fn put_notes<W: Write>(screen: &mut Screen<W>, notes: &[String]) -> io::Result<()> {
    for note in notes {
        screen.wrapped(Style::Plain, "  ", note, 4)?;
    }
    screen.plain("  no file is changed")
}

/// What is wrong, in a sentence.
fn message(failure: &Failure) -> String {
    match failure {
        Failure::Argument { message, .. }
        | Failure::Stopped { message, .. }
        | Failure::File(message)
        | Failure::Busy(message) => message.clone(),
        Failure::Refused { refusal, .. } => refusal.to_string(),
        Failure::Output { error, changed } => {
            let files = match changed {
                true => "the run was carried out and is on the disk: don't run it again",
                false => "no file is changed",
            };
            format!(
                "standard output can't be written: {}; {files}",
                words(error)
            )
        }
    }
}

fn print_json(command: &str, failure: &Failure, form: Form) -> io::Result<()> {
    let mut out = report_output(form.to_error);
    let mut json = Json::new(&mut out).full(form.full);
    json.begin_object()?;
    json.text_of("command", command)?;
    json.text_of("version", VERSION)?;
    json.text_of("schema", &schema_of("problem"))?;
    match failure {
        Failure::Refused { refusal, notes } => {
            json.text_of("outcome", outcome(failure.status()))?;
            json.number_of("status", failure.status() as u64)?;
            json.number_of("refusal", refusal.number())?;
            let (location, fix) = words_for(*refusal, form);
            json.text_of("wrong", refusal.text().wrong)?;
            json.text_of("where", location)?;
            json.text_of("mend", &fix)?;
            put_json_notes(&mut json, notes)?;
        }
        other => {
            json.text_of("outcome", outcome(failure.status()))?;
            json.number_of("status", failure.status() as u64)?;
            json.text_of("message", &message(other))?;
            if let Failure::Stopped { notes, .. } = other {
                put_json_notes(&mut json, notes)?;
            }
        }
    }
    json.end_object()?;
    json.finish()?;
    drop(json);
    out.flush()
}

fn put_json_notes<W: Write>(json: &mut Json<W>, notes: &[String]) -> io::Result<()> {
    json.name("notes")?;
    json.begin_array()?;
    for note in notes {
        json.text(note)?;
    }
    json.end_array()
}

/// What became of a run that was not carried out, in a word.
fn outcome(status: Status) -> &'static str {
    match status {
        Status::Refused => "refused",
        Status::NotFound => "not found",
        Status::Busy => "busy",
        _ => "failed",
    }
}
