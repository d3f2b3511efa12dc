//! A judged batch as JSON.

use std::collections::btree_map::Entry;
use std::collections::BTreeMap;
use std::io::{self, Write};

use fantanolive::{code_text, codes, ERRORS, WARNINGS};

use crate::records::code_fields::{is_blank, name_of};
use crate::records::columns::{detail, reject, Field};
use crate::report::json::{Front, Json, Name};
use crate::report::listing::Listing;
use crate::report::problem::put_json_words;
use crate::report::verdicts::{Coded, Verdicts, NAME_DIFFERS, WRONG_SSN};

/// The members of a record.
const FIELDS: [(&str, Field); 8] = [
    ("state", detail::STATE),
    ("ssn", detail::SSN),
    ("case_type", detail::CASE_TYPE),
    ("transaction_type", detail::TRANSACTION_TYPE),
    ("last_name", detail::LAST_NAME),
    ("first_name", detail::FIRST_NAME),
    ("case_id", detail::CASE_ID),
    ("local_code", detail::LOCAL_CODE),
];

pub fn put_json<W: Write>(
    verdicts: &Verdicts,
    json: &mut Json<W>,
    listing: &Listing,
) -> io::Result<()> {
    json.name("codes")?;
    json.begin_array()?;
    for (code, count) in verdicts.counts() {
        json.begin_object()?;
        json.number_of("code", u64::from(code))?;
        json.number_of("records", count)?;
        if let Some(text) = code_text(code) {
            put_json_words(json, text)?;
        }
        json.end_object()?;
    }
    json.end_array()?;
    if listing.by_office {
        put_offices(verdicts, json)?;
    }
    json.name("records")?;
    json.begin_array()?;
    let first = verdicts.for_files(listing, false);
    let mut writer = Writer::new(verdicts);
    verdicts.each(first, |coded| writer.put_record(json, coded))?;
    json.end_array()?;
    listing.put_left_out(json, verdicts.count(ERRORS | WARNINGS))
}

fn put_offices<W: Write>(verdicts: &Verdicts, json: &mut Json<W>) -> io::Result<()> {
    json.name("offices")?;
    json.begin_array()?;
    for (office, errors, warnings) in verdicts.offices() {
        json.begin_object()?;
        json.text_of("local_code", &office)?;
        json.number_of("to_fix", errors)?;
        json.number_of("warned", warnings)?;
        json.end_object()?;
    }
    json.end_array()
}

/// A writer of records: what many of them have in common is made once.
struct Writer<'a> {
    verdicts: &'a Verdicts<'a>,
    names: [Name; FIELDS.len()],
    sets: [(Name, u64); 2],
    sent: Name,
    /// The fronts of the fields that codes are about, by the code and the field's first column.
    fronts: BTreeMap<(u32, usize), Front>,
}

impl<'a> Writer<'a> {
    fn new(verdicts: &'a Verdicts) -> Writer<'a> {
        Writer {
            verdicts,
            names: FIELDS.map(|(name, _)| Name::new(name)),
            sets: [("errors", ERRORS), ("warnings", WARNINGS)]
                .map(|(name, set)| (Name::new(name), set)),
            sent: Name::new("sent"),
            fronts: BTreeMap::new(),
        }
    }

    fn put_record<W: Write>(&mut self, json: &mut Json<W>, coded: &Coded) -> io::Result<()> {
        let verdicts = self.verdicts;
        json.begin_object()?;
        json.number_of("record", coded.number as u64 + 1)?;
        for (name, (_, field)) in self.names.iter().zip(&FIELDS) {
            json.made_name(name);
            json.text_by(|out| verdicts.of_details.put(field, coded.detail, out))?;
        }
        for (name, set) in &self.sets {
            json.made_name(name);
            json.begin_array()?;
            for code in codes(coded.verdict & set) {
                json.number(u64::from(code))?;
            }
            json.end_array()?;
        }
        if coded.has(NAME_DIFFERS) {
            json.name("stored_name")?;
            let form = &verdicts.of_rejects;
            json.text_by(|out| form.put(&reject::STORED_NAME, coded.reject, out))?;
        }
        let fault = coded.has(WRONG_SSN).then(|| coded.ssn_fault()).flatten();
        if let Some(fault) = fault {
            json.text_of("ssn_fault", &fault)?;
        }
        self.put_sent(json, coded)?;
        json.end_object()
    }

    /// The fields that the codes are about.
    fn put_sent<W: Write>(&mut self, json: &mut Json<W>, coded: &Coded) -> io::Result<()> {
        let form = &self.verdicts.of_details;
        json.made_name(&self.sent);
        json.begin_array()?;
        for code in codes(coded.verdict) {
            for field in coded.fields_of(code) {
                let front = match self.fronts.entry((code, field.first)) {
                    Entry::Occupied(front) => front.into_mut(),
                    Entry::Vacant(place) => place.insert(front_of(json, code, field)?),
                };
                json.object_by(front, |out| {
                    if !is_blank(field, coded.detail) {
                        form.put(field, coded.detail, out);
                    }
                })?;
            }
        }
        json.end_array()
    }
}

/// The front of a field that a code is about, up to its value.
fn front_of<W: Write>(json: &Json<W>, code: u32, field: &Field) -> io::Result<Front> {
    let members = |json: &mut Json<io::Sink>| {
        json.number_of("code", u64::from(code))?;
        json.text_of("field", &name_of(field))?;
        json.text_of("columns", &field.columns())
    };
    json.front(members, "value")
}
