//! What the records change that lead from a row to a wanted row, and what no record leads to.

use std::io::{self, Write};

use fantanolive::{Refusal, RECORD};

use crate::code_page::Charset;
use crate::records::case_change::CaseChange;
use crate::records::columns::{detail, row, Field};
use crate::records::field::{Form, Placeholder};
use crate::report::json::Json;
use crate::report::screen::Screen;

/// Notes on a wanted row that was refused by 29 or 4: the fields that the library refuses by themselves. To a deleted row no
/// record leads at all.
pub fn of_wanted(change: &CaseChange, refusal: Refusal) -> Vec<String> {
    let form = Form::new(Charset::Ebcdic, Placeholder::Dot, false);
    let status = form.field(&row::STATUS, &change.row);
    if refusal == Refusal::NoRecords && !status.is_empty() {
        return vec![format!("the row's Status (196) is {status}: it is deleted")];
    }
    let (front, behind) = match refusal {
        Refusal::UnsoundRow => ("with ", " as wanted the row is not sound"),
        _ => ("no record leads to ", " as wanted"),
    };
    let fields = change.refused_fields(refusal).into_iter();
    let note = |field: Field| format!("{front}{} ({}){behind}", field.name, field.columns());
    fields.map(note).collect()
}

/// The records made, each with the fields of the row that it changes.
pub struct Changes<'a> {
    pub change: &'a CaseChange,
    pub records: &'a [u8],
    pub form: Form,
}

impl Changes<'_> {
    /// A line per record: `record 1  type C  Case ID: '' becomes 'A1'`.
    pub fn put_text<W: Write>(&self, screen: &mut Screen<W>) -> io::Result<()> {
        if !self.records.is_empty() {
            screen.plain("")?;
        }
        for (number, record) in self.records.chunks_exact(RECORD).enumerate() {
            let kind = self.form.field(&detail::TRANSACTION_TYPE, record);
            let changed = self.change.changed_by(record);
            let list = changed.iter().map(|field| {
                let (old, new) = (&self.change.row, &self.change.wanted);
                let [old, new] = [old, new].map(|row| self.form.field(field, row));
                format!("{}: '{old}' becomes '{new}'", field.name)
            });
            let list: Vec<String> = list.collect();
            let list = list.join(", ");
            screen.plain(&format!("record {}  type {kind}  {list}", number + 1))?;
        }
        Ok(())
    }

    pub fn put_json<W: Write>(&self, json: &mut Json<W>) -> io::Result<()> {
        json.name("changes")?;
        json.begin_array()?;
        for (number, record) in self.records.chunks_exact(RECORD).enumerate() {
            for field in self.change.changed_by(record) {
                json.begin_object()?;
                json.number_of("record", number as u64 + 1)?;
                let kind = self.form.field(&detail::TRANSACTION_TYPE, record);
                json.text_of("transaction_type", &kind)?;
                json.text_of("field", field.name)?;
                json.text_of("row", &self.form.field(&field, &self.change.row))?;
                json.text_of("wanted", &self.form.field(&field, &self.change.wanted))?;
                json.end_object()?;
            }
        }
        json.end_array()
    }
}
