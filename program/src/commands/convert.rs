//! to-ebcdic and to-ascii: a file turned from one character set into the other, a part at a time.

use std::fs::File;
use std::io::{self, Read, Write};
use std::path::Path;

use fantanolive::Refusal;

use crate::arguments::Arguments;
use crate::code_page::{self, looks_ascii, Charset};
use crate::commands::output::print_summary;
use crate::failure::{shown, words, Failure, Status};
use crate::files::length::{byte_words, place_note};
use crate::files::outputs::{Outputs, Wanted};
use crate::files::read;
use crate::files::replace::WriteFailure;
use crate::progress::Progress;
use crate::report::notes::refused;
use crate::report::summary::Summary;

/// Bytes that are read and written at a time.
const PART: usize = 1 << 16;

pub fn to_ebcdic(arguments: &Arguments, progress: &Progress) -> Result<Status, Failure> {
    run(arguments, progress, Charset::Ebcdic)
}

pub fn to_ascii(arguments: &Arguments, progress: &Progress) -> Result<Status, Failure> {
    run(arguments, progress, Charset::Ascii)
}

fn run(arguments: &Arguments, progress: &Progress, to: Charset) -> Result<Status, Failure> {
    let path = arguments.path(0);
    let wanted = Wanted {
        state: false,
        made: &["--out"],
        inputs: &[path],
    };
    let mut input = open(path)?;
    let outputs = Outputs::open(arguments, &wanted)?;
    let mut bytes = 0;
    let staged = outputs.stage_made("--out", progress, |out| {
        bytes = convert(path, &mut input, out, to)?;
        Ok(())
    })?;
    let placed = outputs.put_in_place(vec![staged])?;
    let summary = Summary::new(arguments.command.name, Status::Done)
        .heading("converted")
        .number("bytes", bytes)
        .placed(placed);
    print_summary(arguments, progress, &summary)
}

fn unread(path: &Path, error: &io::Error) -> Failure {
    Failure::file(path, format!("can't be read: {}", words(error)))
}

fn open(path: &Path) -> Result<File, Failure> {
    let file = read::open(path).map_err(|error| unread(path, &error))?;
    match file.metadata() {
        Ok(about) if about.is_dir() => Err(Failure::file(path, "can't be read: it is a folder")),
        _ => Ok(file),
    }
}

/// Converts a file to its end. The answer is its length.
fn convert(
    path: &Path,
    input: &mut File,
    out: &mut dyn Write,
    to: Charset,
) -> Result<u64, WriteFailure> {
    let mut part = Vec::with_capacity(PART);
    let mut before = 0;
    loop {
        part.clear();
        let read = input.take(PART as u64).read_to_end(&mut part);
        let length = read.map_err(|error| WriteFailure::Other(unread(path, &error)))?;
        if length == 0 {
            return Ok(before);
        }
        if let Err(place) = code_page::convert(&mut part, to) {
            let note = note_of(path, before, place, &part, to);
            return Err(WriteFailure::Other(refused(
                Refusal::NoCounterpart,
                vec![note],
            )));
        }
        out.write_all(&part)?;
        before += length as u64;
    }
}

/// What is known of a byte without a counterpart.
fn note_of(path: &Path, before: u64, place: u64, part: &[u8], to: Charset) -> String {
    let at = usize::try_from(place).unwrap_or_default();
    let byte = part[at];
    let hint = match to {
        Charset::Ebcdic if byte == b'\n' || byte == b'\r' => {
            ", a line end: take the line ends out, or give the command that reads the file --lines"
                .to_string()
        }
        Charset::Ebcdic => byte_words(&part[at..], before + place == 0),
        _ if looks_ascii(&[byte]) => {
            ", an ASCII character: is the file in ASCII already?".to_string()
        }
        _ if byte == 0x15 || byte == 0x25 => {
            ", an EBCDIC line end: take the line ends out".to_string()
        }
        _ => String::new(),
    };
    format!(
        "{}: {}{hint}",
        shown(path),
        place_note(before + place, byte, None)
    )
}
