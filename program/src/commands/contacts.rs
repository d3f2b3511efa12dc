//! contacts: a contact file read into a table of contact records.

use std::cell::RefCell;

use fantanolive::{ContactCounts, Refusal, CONTACT};

use crate::arguments::Arguments;
use crate::code_page::Charset;
use crate::commands::output::{form_of, print};
use crate::commands::report_files::{self, with_reports};
use crate::failure::{counted, Failure, Status};
use crate::files::length;
use crate::files::outputs::{Outputs, Wanted};
use crate::files::read::{read, read_with_room, Input};
use crate::memory::zeros;
use crate::progress::Progress;
use crate::records::code_fields::is_blank;
use crate::records::columns::{contact, Field};
use crate::records::contact_faults::ContactFaults;
use crate::records::field::Form;
use crate::records::kinds::{CONTACTS, TABLE};
use crate::report::html::Page;
use crate::report::listed::{Listed, PutReason};
use crate::report::listing::Listing;
use crate::report::notes;
use crate::report::summary::Summary;

/// When a record is faulty.
const REASONS: &str = "A record is good where its state is in the table of 54, its code three digits, telephone 1 of the form \
(301) 555-1212, telephone 2 of this form or blank, each extension digits with only spaces behind or blank, CHILD SUPPORT or \
FAMILY SUPPORT in the agency name, neither IRS nor FMS a word of the name or an address line, one of address lines 1 to 3 and \
line 4 not blank, and the filler blank.";

/// The members of a faulty record in JSON.
const FIELDS: [(&str, Field); 3] = [
    ("state", contact::STATE),
    ("local_code", contact::LOCAL_CODE),
    ("agency_name", contact::AGENCY_NAME),
];

pub fn run(arguments: &Arguments, progress: &Progress) -> Result<Status, Failure> {
    let wanted = Wanted {
        state: true,
        made: &with_reports(arguments, &[]),
        inputs: &[arguments.path(1)],
    };
    let outputs = Outputs::open(arguments, &wanted)?;
    let listing = Listing::of(arguments)?;
    let charset = arguments.charset();
    let file = read(arguments.path(1), &CONTACTS, charset, progress)?.into_ebcdic()?;
    let updated = Updated::of(arguments, &file, progress)?;
    let summary = updated.summary(file.records() as u64);
    let form = form_of(arguments, Charset::Ebcdic);
    let reasons = RefCell::new(Reasons::new(&form));
    let reason = |_, record: &[u8], out: &mut String| reasons.borrow_mut().put(record, out);
    let listed = faulty(arguments, &updated.faulty, &file, &listing, &reason);
    let chart = report_files::chart(arguments, || chart_of(&updated.faulty, &file));
    let page = Page {
        about: report_files::about(arguments, &file.name()),
        chart: ("Wrong fields", chart),
        notes: listed.notes.clone(),
        list: &listed,
        full: arguments.flag("--full"),
    };
    let mut staged = report_files::stage(&outputs, arguments, progress, &summary, &page)?;
    staged.push(outputs.stage_state(progress, updated.records())?);
    let summary = summary.placed(outputs.put_in_place(staged)?);
    print(
        arguments,
        progress,
        &summary,
        |screen| listed.put_text(screen),
        |json| listed.put_json(json),
    )
}

/// A table with the records of a file read into it.
struct Updated {
    table: Input,
    before: usize,
    counts: ContactCounts,
    /// The numbers of the faulty records, the first being 1.
    faulty: Vec<u32>,
}

impl Updated {
    fn of(arguments: &Arguments, file: &Input, progress: &Progress) -> Result<Updated, Failure> {
        let sent = file.records();
        let mut table = read_table(arguments, sent, progress)?;
        let before = table.records();
        let mut faulty = zeros(sent)?;
        let records = counted(sent as u64, "contact record");
        progress.now(format!("reading {records}"));
        let bytes = &mut table.bytes;
        let counts = fantanolive::contacts_update(bytes, before, &file.bytes, &mut faulty)
            .map_err(|refusal| notes::refused(refusal, notes_of(refusal, &table, file)))?;
        faulty.truncate(counts.faulty as usize);
        Ok(Updated {
            table,
            before,
            counts,
            faulty,
        })
    }

    fn records(&self) -> &[u8] {
        &self.table.bytes[..self.counts.contacts as usize * CONTACT]
    }

    fn summary(&self, sent: u64) -> Summary {
        let faulty = self.counts.faulty;
        Summary::new("contacts", Status::of_rejects(faulty > 0))
            .verdict(match faulty {
                0 => "carried out, no record faulty".to_string(),
                faulty => format!("carried out, {} faulty", counted(faulty, "record")),
            })
            .number("records read", sent)
            .of_which("good", sent - faulty)
            .of_which("faulty", faulty)
            .number("table before", self.before as u64)
            .number("table", self.counts.contacts)
    }
}

/// Reads the table with room for so many new records; with --new there is none to read.
fn read_table(
    arguments: &Arguments,
    new_records: usize,
    progress: &Progress,
) -> Result<Input, Failure> {
    let path = arguments.path(0);
    // A file of a wrong length is lent as it is, so that the call refuses it.
    let room = |length: usize| match length % CONTACT {
        0 => length + new_records * CONTACT,
        _ => length,
    };
    if arguments.flag("--new") {
        return Input::none(path, &TABLE, room(0));
    }
    read_with_room(path, &TABLE, Charset::Ebcdic, &room, progress)
}

/// What is known of the files where the update is refused.
fn notes_of(refusal: Refusal, table: &Input, file: &Input) -> Vec<String> {
    let of_file = match (refusal, file.length) {
        (Refusal::WrongContacts, 1..) => length::of_file(file),
        _ => Vec::new(),
    };
    if refusal == Refusal::WrongContacts && of_file.is_empty() {
        return notes::of_table(table);
    }
    of_file
}

/// The faulty records.
fn faulty<'a>(
    arguments: &Arguments,
    numbers: &'a [u32],
    file: &'a Input,
    listing: &'a Listing,
    reason: &'a PutReason<'a>,
) -> Listed<'a> {
    let mut notes = length::of_file(file);
    if !numbers.is_empty() {
        notes.push(REASONS.to_string());
    }
    Listed {
        heading: ("faulty record", "faulty records"),
        member: "faulty_records",
        numbers,
        file,
        form: form_of(arguments, Charset::Ebcdic),
        put_line,
        fields: &FIELDS,
        heads: &["Record", "State", "Local code", "Agency name", "Reason"],
        listing,
        reason,
        fix: None,
        notes,
    }
}

/// How many faulty records have each field wrong, for a chart.
fn chart_of(numbers: &[u32], file: &Input) -> Vec<(String, u64, String)> {
    let mut counts = vec![0; contact::FIELDS.len()];
    let mut faults = ContactFaults::new();
    for &number in numbers {
        for wrong in faults.wrong_fields(file.record(number as usize - 1)) {
            let is_it = |field: &Field| field.first == wrong.first;
            if let Some(place) = contact::FIELDS.iter().position(is_it) {
                counts[place] += 1;
            }
        }
    }
    let fields = contact::FIELDS.iter().zip(counts);
    let wrong = fields.filter(|(_, count)| *count > 0);
    wrong
        .map(|(field, count)| (field.name.to_string(), count, field.columns()))
        .collect()
}

/// Why records are faulty.
struct Reasons<'a> {
    form: &'a Form,
    faults: ContactFaults,
    /// The last record, and what was written of it: many that are alike, as blank ones, may stand one behind the other.
    record: Vec<u8>,
    words: String,
}

impl<'a> Reasons<'a> {
    fn new(form: &'a Form) -> Reasons<'a> {
        Reasons {
            form,
            faults: ContactFaults::new(),
            record: Vec::new(),
            words: String::new(),
        }
    }

    /// Writes the reason of a record; the answer is its name.
    fn put(&mut self, record: &[u8], out: &mut String) -> &'static str {
        if record != self.record {
            self.words.clear();
            put_reason(self.form, &mut self.faults, record, &mut self.words);
            self.record.clear();
            self.record.extend_from_slice(record);
        }
        out.push_str(&self.words);
        "wrong fields"
    }
}

/// Writes the fields that are wrong by themselves, with their values.
fn put_reason(form: &Form, faults: &mut ContactFaults, record: &[u8], out: &mut String) {
    out.push_str("wrong: ");
    for (place, field) in faults.wrong_fields(record).enumerate() {
        if place > 0 {
            out.push_str(", ");
        }
        out.push_str(field.name);
        match is_blank(field, record) {
            true => out.push_str(" blank"),
            false => {
                out.push_str(" '");
                form.put(field, record, out);
                out.push('\'');
            }
        }
    }
}

/// `OH003  COUNTY CHILD SUPPORT AGENCY`.
fn put_line(form: &Form, record: &[u8], text: &mut String) {
    form.put(&contact::STATE, record, text);
    form.put(&contact::LOCAL_CODE, record, text);
    text.push_str("  ");
    form.put(&contact::AGENCY_NAME, record, text);
}
