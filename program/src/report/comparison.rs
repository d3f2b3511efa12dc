//! Two reconciliation files compared, as text, JSON and a table.

use std::io::{self, Write};

use crate::records::columns::{rec, Field};
use crate::records::compared::{Compared, Found, COMPARED_FIELDS, KEY_FIELDS};
use crate::records::field::Form;
use crate::report::json::Json;
use crate::report::listing::Listing;
use crate::report::screen::{Screen, Style};
use crate::report::sheet::{Put, Sheet};

pub struct Comparison<'a> {
    pub compared: &'a Compared<'a>,
    /// What is known of the files.
    pub notes: &'a [String],
    /// For each case whether no record is made for it; none where none are made.
    pub left: &'a [bool],
    pub form: Form,
    pub listing: &'a Listing,
}

/// What one case of the list is, and what several are.
const HEADING: (&str, &str) = ("case that is not the same", "cases that are not the same");

/// What was found of a case, in words.
fn words(found: &Found) -> &'static str {
    match found {
        Found::OnlyHere(_) => "only here",
        Found::OnlyThere(_) => "only there",
        Found::Differs(..) => "differs",
        Found::Again(_) => "again there",
    }
}

impl Comparison<'_> {
    /// The same, and that no record is made for the case.
    fn words(&self, at: usize, found: &Found) -> String {
        match self.left.get(at) {
            Some(true) => format!("{}, left to you", words(found)),
            _ => words(found).to_string(),
        }
    }

    /// The cases found up to a number, each with its place.
    fn listed(&self, most: usize) -> impl Iterator<Item = (usize, &Found)> {
        self.compared.found.iter().enumerate().take(most)
    }

    /// The record by which a case is shown.
    fn record(&self, found: &Found) -> &[u8] {
        match *found {
            Found::OnlyHere(here) | Found::Differs(here, _) => self.compared.here(here),
            Found::OnlyThere(there) | Found::Again(there) => self.compared.there(there),
        }
    }

    fn key(&self, found: &Found) -> String {
        let mut key = String::new();
        self.form.put_key(&KEY_FIELDS, self.record(found), &mut key);
        key
    }

    fn name(&self, found: &Found) -> String {
        let mut name = String::new();
        let record = self.record(found);
        self.form
            .put_name(&rec::LAST_NAME, &rec::FIRST_NAME, record, &mut name);
        name
    }

    /// The fields in which a case differs, here and there.
    fn fields(&self, found: &Found) -> Vec<(&'static Field, String, String)> {
        let Found::Differs(here, there) = *found else {
            return Vec::new();
        };
        let values = |field: &'static Field| {
            let here = self.form.field(field, self.compared.here(here));
            let there = self.form.field(field, self.compared.there(there));
            (field, here, there)
        };
        self.compared.differing(here, there).map(values).collect()
    }

    pub fn put_text<W: Write>(&self, screen: &mut Screen<W>) -> io::Result<()> {
        let count = self.compared.found.len();
        let mut notes = self.notes.iter();
        notes.try_for_each(|note| screen.wrapped(Style::Warning, "  ", note, 4))?;
        if count == 0 {
            return Ok(());
        }
        self.listing.put_heading(screen, count, HEADING)?;
        for (at, found) in self.listed(self.listing.most) {
            let (key, name) = (self.key(found), self.name(found));
            let line = format!("{key}  {name}  {}", self.words(at, found));
            screen.line(Style::Error, &line)?;
            for (field, here, there) in self.fields(found) {
                let name = field.name;
                screen.plain(&format!("    {name}: '{here}' here, '{there}' there"))?;
            }
        }
        self.listing.put_rest(screen, count)
    }

    pub fn put_json<W: Write>(&self, json: &mut Json<W>) -> io::Result<()> {
        json.name("notes")?;
        json.begin_array()?;
        self.notes.iter().try_for_each(|note| json.text(note))?;
        json.end_array()?;
        json.name("cases")?;
        json.begin_array()?;
        for (at, found) in self.listed(self.listing.most_in_files) {
            json.begin_object()?;
            json.text_of("key", &self.key(found))?;
            json.text_of("name", &self.name(found))?;
            json.text_of("found", words(found))?;
            if let Some(&is_left) = self.left.get(at) {
                json.text_of("left_to_you", if is_left { "yes" } else { "no" })?;
            }
            json.name("fields")?;
            json.begin_array()?;
            for (field, here, there) in self.fields(found) {
                json.begin_object()?;
                json.text_of("field", field.name)?;
                json.text_of("here", &here)?;
                json.text_of("there", &there)?;
                json.end_object()?;
            }
            json.end_array()?;
            json.end_object()?;
        }
        json.end_array()?;
        let count = self.compared.found.len();
        self.listing.put_left_out(json, count)
    }
}

impl Sheet for Comparison<'_> {
    fn caption(&self) -> String {
        let count = self.compared.found.len();
        self.listing.caption(count, HEADING)
    }

    fn heads(&self) -> &'static [&'static str] {
        &["Key", "Name", "Found", "Field", "Here", "There"]
    }

    fn put_lines(&self, put: &mut Put) -> io::Result<()> {
        for note in self.notes {
            put(&["", note, "note", "", "", ""])?;
        }
        for (at, found) in self.listed(self.listing.most_in_files) {
            let (key, name) = (self.key(found), self.name(found));
            let (words, fields) = (self.words(at, found), self.fields(found));
            if fields.is_empty() {
                put(&[&key, &name, &words, "", "", ""])?;
            }
            for (field, here, there) in fields {
                put(&[&key, &name, &words, field.name, &here, &there])?;
            }
        }
        Ok(())
    }
}

/// How many cases differ in each field, for a chart.
pub fn chart_of(compared: &Compared) -> Vec<(String, u64, String)> {
    let mut counts = vec![0; COMPARED_FIELDS.len()];
    for found in &compared.found {
        if let Found::Differs(here, there) = *found {
            for field in compared.differing(here, there) {
                let place = COMPARED_FIELDS.iter().position(|other| other == field);
                counts[place.unwrap_or_default()] += 1;
            }
        }
    }
    let fields = COMPARED_FIELDS.iter().zip(counts);
    let differing = fields.filter(|(_, count)| *count > 0);
    differing
        .map(|(field, count)| (field.name.to_string(), count, String::new()))
        .collect()
}
