//! merge: batches of one state made one.

use std::borrow::Cow;
use std::io::{self, Write};

use fantanolive::{Refusal, RECORD};

use crate::arguments::Arguments;
use crate::code_page::{convert, Charset};
use crate::commands::output::{form_of, print, put_notes};
use crate::failure::{headed, Failure, Status};
use crate::files::outputs::{Outputs, Wanted};
use crate::files::read::{read, Input};
use crate::progress::Progress;
use crate::records::columns::control;
use crate::records::control_record::refusal_of;
use crate::records::field::Form;
use crate::records::kinds::BATCH;
use crate::records::name_changes::{renamed, Renamed, KEY_FIELDS};
use crate::report::batch_notes::{of_batch, of_sums};
use crate::report::json::Json;
use crate::report::notes::refused;
use crate::report::screen::{Screen, Style};
use crate::report::summary::Summary;

pub fn run(arguments: &Arguments, progress: &Progress) -> Result<Status, Failure> {
    let charset = arguments.charset();
    let paths = arguments.paths();
    let wanted = Wanted {
        state: false,
        made: &["--out"],
        inputs: &paths,
    };
    let outputs = Outputs::open(arguments, &wanted)?;
    let batches = paths
        .iter()
        .map(|path| read(path, &BATCH, charset, progress)?.into_ebcdic())
        .collect::<Result<Vec<Input>, Failure>>()?;
    progress.now("merging the batches");
    let mut merged = merged_from_left(&batches)?;
    let form = form_of(arguments, Charset::Ebcdic);
    let shared = Shared::of(&merged, &batches, form);
    let twice = Twice::of(&batches);
    if !arguments.flag("--anyway") {
        twice.see_none()?;
        shared.see_none()?;
    }
    let last = &merged[merged.len() - RECORD..];
    let summary = Summary::new("merge", Status::Done)
        .text("state", shared.form.field(&control::STATE, last))
        .number("batches", batches.len() as u64)
        .number("details", (merged.len() / RECORD - 1) as u64);
    if charset.is_ascii() {
        // the batches came from ASCII
        let _ = convert(&mut merged, charset);
    }
    let staged = vec![outputs.stage_records("--out", progress, &merged, RECORD)?];
    let summary = summary.placed(outputs.put_in_place(staged)?);
    print(
        arguments,
        progress,
        &summary,
        |screen| {
            twice.put_text(screen)?;
            shared.put_text(screen)
        },
        |json| {
            put_notes(json, &twice.0)?;
            shared.put_json(json)
        },
    )
}

/// A note for each batch with details that is, byte for byte, one before it.
struct Twice(Vec<String>);

impl Twice {
    fn of(batches: &[Input]) -> Twice {
        let mut notes = Vec::new();
        for (number, batch) in batches.iter().enumerate() {
            let mut before = batches[..number].iter();
            let same = before.find(|other| batch.records() > 1 && other.bytes == batch.bytes);
            if let Some(other) = same {
                let (name, other) = (batch.name(), other.name());
                notes.push(match name == other {
                    true => format!("{name} is given twice"),
                    false => format!("{name} has the same records as {other}"),
                });
            }
        }
        Twice(notes)
    }

    fn see_none(&self) -> Result<(), Failure> {
        if self.0.is_empty() {
            return Ok(());
        }
        let what = "a batch is there twice, so that its records would be sent twice; --anyway merges them all the same";
        Err(Failure::Stopped {
            message: what.to_string(),
            notes: self.0.clone(),
        })
    }

    fn put_text<W: Write>(&self, screen: &mut Screen<W>) -> io::Result<()> {
        let mut notes = self.0.iter();
        notes.try_for_each(|note| screen.wrapped(Style::Warning, "  ", note, 4))
    }
}

/// The first with the second, that with the third and so on.
fn merged_from_left(batches: &[Input]) -> Result<Vec<u8>, Failure> {
    let mut merged = Cow::Borrowed(&batches[0].bytes[..]);
    for number in 1..batches.len() {
        let next = &batches[number].bytes;
        let mut out = vec![0; (merged.len() + next.len()).saturating_sub(RECORD)];
        let done = fantanolive::merge(&merged, next, &mut out);
        done.map_err(|refusal| refused(refusal, notes_of(refusal, batches, number)))?;
        merged = Cow::Owned(out);
    }
    Ok(merged.into_owned())
}

/// What is known of batches of which one, by its number, can't be merged with those before it.
fn notes_of(refusal: Refusal, batches: &[Input], number: usize) -> Vec<String> {
    let concerned = &batches[..=number];
    if refusal == Refusal::CannotMerge {
        return concerned.iter().map(of_sums).collect();
    }
    let is_refused = |batch: &&Input| refusal_of(&batch.bytes) == Some(refusal);
    let batch = concerned.iter().find(is_refused);
    batch.map_or(Vec::new(), |batch| of_batch(refusal, batch))
}

/// The keys with a B that have records in several batches.
struct Shared {
    keys: Vec<Key>,
    form: Form,
}

/// Such a key as it is shown, and where its first and last records and its first B stand.
struct Key {
    shown: String,
    first: Place,
    last: Place,
    name_change: Place,
}

/// A record of a batch: the file's name, and the record's number, the first being 1.
struct Place {
    file: String,
    record: usize,
}

impl Shared {
    /// The details of the merged batch are those of the batches in their order.
    fn of(merged: &[u8], batches: &[Input], form: Form) -> Shared {
        let details = &merged[..merged.len() - RECORD];
        let key_of = |key: &Renamed| {
            let mut shown = String::new();
            form.put_key(&KEY_FIELDS, &details[key.first * RECORD..], &mut shown);
            Key {
                shown,
                first: place_of(batches, key.first),
                last: place_of(batches, key.last),
                name_change: place_of(batches, key.name_change),
            }
        };
        let batch_of = |detail| within(batches, detail).0;
        let keys = renamed(details);
        let shared = |key: &&Renamed| batch_of(key.first) != batch_of(key.last);
        Shared {
            keys: keys.iter().filter(shared).map(key_of).collect(),
            form,
        }
    }

    /// `1 key with a B has records in several batches`.
    fn heading(&self) -> String {
        let words = (
            "key with a B has records in several batches",
            "keys with a B have records in several batches",
        );
        headed(self.keys.len() as u64, words)
    }

    fn see_none(&self) -> Result<(), Failure> {
        if self.keys.is_empty() {
            return Ok(());
        }
        let what = "so the merged batch may do something else; --anyway merges them all the same";
        Err(Failure::Stopped {
            message: format!("{}, {what}", self.heading()),
            notes: self.keys.iter().map(Key::note).collect(),
        })
    }

    fn put_text<W: Write>(&self, screen: &mut Screen<W>) -> io::Result<()> {
        if self.keys.is_empty() {
            return Ok(());
        }
        screen.plain("")?;
        screen.line(Style::Heading, &self.heading())?;
        for key in &self.keys {
            screen.line(Style::Warning, &key.note())?;
        }
        Ok(())
    }

    fn put_json<W: Write>(&self, json: &mut Json<W>) -> io::Result<()> {
        json.name("keys_in_several_batches")?;
        json.begin_array()?;
        for key in &self.keys {
            json.begin_object()?;
            json.text_of("key", &key.shown)?;
            for (name, place) in [
                ("first", &key.first),
                ("last", &key.last),
                ("name_change", &key.name_change),
            ] {
                json.name(name)?;
                json.begin_object()?;
                json.text_of("file", &place.file)?;
                json.number_of("record", place.record as u64)?;
                json.end_object()?;
            }
            json.end_object()?;
        }
        json.end_array()
    }
}

impl Key {
    fn note(&self) -> String {
        let [first, last, name_change] = [&self.first, &self.last, &self.name_change]
            .map(|place| format!("record {} of {}", place.record, place.file));
        format!(
            "{} begins with {first} and ends with {last}; its B is {name_change}",
            self.shown
        )
    }
}

/// The batch of a detail of the merged one by its number, and the detail's number in it, all from 0.
fn within(batches: &[Input], detail: usize) -> (usize, usize) {
    let details = |number: usize| batches[number].records() - 1;
    let (mut number, mut left) = (0, detail);
    while left >= details(number) {
        left -= details(number);
        number += 1;
    }
    (number, left)
}

fn place_of(batches: &[Input], detail: usize) -> Place {
    let (number, left) = within(batches, detail);
    Place {
        file: batches[number].name(),
        record: left + 1,
    }
}
