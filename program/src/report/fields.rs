//! Records field by field: a line for each, a JSON object, or a table with a line per record.

use std::io::{self, Write};

use crate::records::columns::{Field, Kind, Layout};
use crate::records::csv_fields::name_of;
use crate::records::field::{exclusions, Form};
use crate::report::json::Json;
use crate::report::screen::{Screen, Style};

/// Whether a field is left out: a filler that is blank.
fn is_left_out(field: &Field, value: &str) -> bool {
    field.kind == Kind::Filler && value.is_empty()
}

/// A line per field: its name, its columns and its value.
pub fn put_list<W: Write>(
    screen: &mut Screen<W>,
    fields: &[Field],
    record: &[u8],
    form: &Form,
) -> io::Result<()> {
    let width = fields
        .iter()
        .map(|field| field.name.len())
        .max()
        .unwrap_or(0);
    let mut line = String::new();
    for field in fields {
        let value = form.field(field, record);
        if is_left_out(field, &value) {
            continue;
        }
        line.clear();
        line += &format!("  {:<width$}  {:>7}  {value}", field.name, field.columns());
        screen.plain(line.trim_end())?;
    }
    Ok(())
}

/// The members of a record in JSON: one per field, named as a column of CSV is.
pub struct Members(Vec<(Field, String)>);

impl Members {
    pub fn of(fields: &[Field]) -> Members {
        Members(
            fields
                .iter()
                .map(|field| (*field, name_of(field)))
                .collect(),
        )
    }

    /// An object. A set is an array, counts and amounts are numbers where they are right.
    pub fn put<W: Write>(&self, json: &mut Json<W>, record: &[u8], form: &Form) -> io::Result<()> {
        json.begin_object()?;
        let mut value = String::new();
        for (field, name) in &self.0 {
            value.clear();
            form.put(field, record, &mut value);
            if is_left_out(field, &value) {
                continue;
            }
            json.any_name(name)?;
            match field.kind {
                Kind::Set => put_set(json, field.of(record)[0])?,
                Kind::Number | Kind::Amount => json.number_or_text(&value)?,
                _ => json.text(&value)?,
            }
        }
        json.end_object()
    }
}

fn put_set<W: Write>(json: &mut Json<W>, set: u8) -> io::Result<()> {
    json.begin_array()?;
    for name in exclusions(set) {
        json.text(name)?;
    }
    json.end_array()
}

/// The width of the column with the records' numbers.
const NUMBER: usize = 6;

/// A table: the columns are fields, each as wide as its short name or its longest value.
pub struct Table {
    columns: Vec<(Field, usize)>,
    line: String,
}

/// The longest value of a field.
fn widest(field: &Field) -> usize {
    let bytes = field.last + 1 - field.first;
    match field.kind {
        Kind::Set => exclusions(0xFF).join(",").len(),
        Kind::Amount => bytes + 1,
        _ => bytes,
    }
}

/// Short names for the columns of a table.
const SHORT: [(&str, &str); 13] = [
    ("Submitting State Code", "St"),
    ("Case Type Indicator", "Ty"),
    ("Obligor Last Name", "Last name"),
    ("Obligor First Name", "First name"),
    ("Arrearage Amount", "Amount"),
    ("Current Arrearage Amount", "Amount"),
    ("Transaction Type", "Tr"),
    ("Status", "D"),
    ("Cents", "Ct"),
    ("Collection Amount", "Collection"),
    ("Adjustment Amount", "Adjustment"),
    ("Rejected Error Codes", "Codes"),
    ("OCSE Last Name", "Stored"),
];

fn short(field: &Field) -> &'static str {
    let known = SHORT.iter().find(|(name, _)| *name == field.name);
    known.map_or(field.name, |(_, short)| short)
}

/// The fields of a table: those that matter first, then the others but the fillers.
pub fn in_order(fields: Layout, first: Layout) -> Vec<&'static Field> {
    let others = fields.iter().filter(|field| !first.contains(field));
    let others = others.filter(|field| field.kind != Kind::Filler);
    first.iter().chain(others).collect()
}

impl Table {
    pub fn new(fields: &[&'static Field]) -> Table {
        let column = |field: &&'static Field| (**field, short(field).len().max(widest(field)));
        Table {
            columns: fields.iter().map(column).collect(),
            line: String::new(),
        }
    }

    /// The names of the fields.
    pub fn put_names<W: Write>(&mut self, screen: &mut Screen<W>, record: &str) -> io::Result<()> {
        let mut line = format!("{record:>NUMBER$}");
        for (field, width) in &self.columns {
            line += &format!("  {:<width$}", short(field));
        }
        screen.line(Style::Heading, line.trim_end())
    }

    /// A record with its number, the first being 1.
    pub fn put<W: Write>(
        &mut self,
        screen: &mut Screen<W>,
        number: usize,
        record: &[u8],
        form: &Form,
    ) -> io::Result<()> {
        self.line.clear();
        let digits = number.to_string();
        pad(&mut self.line, NUMBER.saturating_sub(digits.len()));
        self.line.push_str(&digits);
        let mut end = self.line.len();
        for (field, width) in &self.columns {
            let missing = end.saturating_sub(self.line.len()) + 2;
            pad(&mut self.line, missing);
            end = self.line.len() + width;
            form.put(field, record, &mut self.line);
        }
        screen.plain(self.line.trim_end())
    }
}

fn pad(line: &mut String, spaces: usize) {
    line.extend(std::iter::repeat_n(' ', spaces));
}
