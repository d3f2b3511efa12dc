//! Records of a file that a call listed by their numbers, each with the reason.

use std::io::{self, Write};

use crate::files::read::Input;
use crate::number::put_number;
use crate::records::columns::{Field, Kind};
use crate::records::field::Form;
use crate::report::json::{Json, Name};
use crate::report::listing::Listing;
use crate::report::screen::{Screen, Style};
use crate::report::sheet::{Put, Sheet};

/// What stands before the reason of a record.
const INDENT: &str = "    ";

pub struct Listed<'a> {
    /// What one record is and what several are, and the name of their JSON array.
    pub heading: (&'static str, &'static str),
    pub member: &'static str,
    /// Their numbers, the first record being 1.
    pub numbers: &'a [u32],
    pub file: &'a Input,
    pub form: Form,
    /// What is printed of a record behind its number.
    pub put_line: fn(&Form, &[u8], &mut String),
    /// The members of its JSON object behind its number.
    pub fields: &'a [(&'static str, Field)],
    /// The names of its columns in files: its number, these fields, and the reason.
    pub heads: &'static [&'static str],
    pub listing: &'a Listing,
    pub reason: &'a PutReason<'a>,
    /// What to do with a record, by its place in the list: a column of files behind the reason.
    pub fix: Option<&'a dyn Fn(usize) -> &'static str>,
    /// What is said below the list.
    pub notes: Vec<String>,
}

/// Writes why a record is listed, by its place in the list and its bytes. The answer is the name of the reason.
pub type PutReason<'a> = dyn Fn(usize, &[u8], &mut String) -> &'static str + 'a;

impl Listed<'_> {
    /// The place of each record in the list and its number, with its bytes.
    fn records(&self) -> impl Iterator<Item = (usize, u32, &[u8])> {
        let record = |(place, &number): (usize, &u32)| {
            (place, number, self.file.record(number as usize - 1))
        };
        self.numbers.iter().enumerate().map(record)
    }

    pub fn put_text<W: Write>(&self, screen: &mut Screen<W>) -> io::Result<()> {
        let listing = self.listing;
        if self.numbers.is_empty() {
            return self.put_notes(screen);
        }
        listing.put_heading(screen, self.numbers.len(), self.heading)?;
        let mut text = String::new();
        for (place, number, record) in self.records().take(listing.most) {
            text.clear();
            text.push_str(self.file.kind.record);
            text.push(' ');
            put_number(u64::from(number), &mut text);
            text.push_str("  ");
            (self.put_line)(&self.form, record, &mut text);
            screen.line(Style::Error, &text)?;
            text.clear();
            text.push_str(INDENT);
            (self.reason)(place, record, &mut text);
            screen.broken(Style::Plain, &text, INDENT.len(), INDENT.len())?;
        }
        listing.put_rest(screen, self.numbers.len())?;
        self.put_notes(screen)
    }

    fn put_notes<W: Write>(&self, screen: &mut Screen<W>) -> io::Result<()> {
        for note in &self.notes {
            screen.plain("")?;
            screen.wrapped(Style::Plain, "", note, 0)?;
        }
        Ok(())
    }

    pub fn put_json<W: Write>(&self, json: &mut Json<W>) -> io::Result<()> {
        json.name(self.member)?;
        json.begin_array()?;
        let names: Vec<Name> = self
            .fields
            .iter()
            .map(|(name, _)| Name::new(name))
            .collect();
        let mut text = String::new();
        for (place, number, record) in self.records().take(self.listing.most_in_files) {
            json.begin_object()?;
            json.number_of(self.file.kind.record, u64::from(number))?;
            for (name, (_, field)) in names.iter().zip(self.fields) {
                json.made_name(name);
                self.put_member(json, field, record, &mut text)?;
            }
            text.clear();
            let name = (self.reason)(place, record, &mut text);
            json.text_of("reason", name)?;
            json.text_of("reason_words", &text)?;
            json.end_object()?;
        }
        json.end_array()?;
        self.listing.put_left_out(json, self.numbers.len())?;
        json.name("notes")?;
        json.begin_array()?;
        for note in &self.notes {
            json.text(note)?;
        }
        json.end_array()
    }

    /// A field of a record. The text is written over.
    fn put_member<W: Write>(
        &self,
        json: &mut Json<W>,
        field: &Field,
        record: &[u8],
        text: &mut String,
    ) -> io::Result<()> {
        if field.kind != Kind::Amount {
            return json.text_by(|out| self.form.put(field, record, out));
        }
        text.clear();
        self.form.put(field, record, text);
        json.number_or_text(text)
    }
}

impl Sheet for Listed<'_> {
    fn caption(&self) -> String {
        self.listing.caption(self.numbers.len(), self.heading)
    }

    fn heads(&self) -> &'static [&'static str] {
        self.heads
    }

    fn put_lines(&self, put: &mut Put) -> io::Result<()> {
        for (place, number, record) in self.records().take(self.listing.most_in_files) {
            let values = self.fields.iter();
            let values = values.map(|(_, field)| self.form.field(field, record));
            let cells = [number.to_string()].into_iter().chain(values);
            let mut words = String::new();
            (self.reason)(place, record, &mut words);
            let fix = self.fix.map(|fix| fix(place).to_string());
            let cells: Vec<String> = cells.chain([words]).chain(fix).collect();
            let cells: Vec<&str> = cells.iter().map(String::as_str).collect();
            put(&cells)?;
        }
        Ok(())
    }
}
