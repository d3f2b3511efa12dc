//! What differs between the rows of a master before and after a run, row by row and field by field. Nothing is judged: rows are
//! told apart by their keys, and fields are shown as they stand.

use std::io::{self, Write};

use fantanolive::{KEY, ROW};

use crate::failure::{headed, Failure};
use crate::records::columns::{row, Field};
use crate::records::field::Form;
use crate::report::json::Json;
use crate::report::screen::{Screen, Style};

/// A row, and its place in its list, the first being 0.
type Placed = (usize, [u8; ROW]);

/// The rows that differ. Those before are kept by themselves, so that not all of them have to be at hand.
pub struct Differences<'a> {
    after: &'a [u8],
    /// Rows before, each with the place of the one after.
    pub changed: Vec<(Placed, usize)>,
    /// Rows whose key is there before alone, and the places of those whose key is there after alone.
    pub gone: Vec<Placed>,
    pub come: Vec<usize>,
}

/// The words for rows that are changed, gone and come, one or several, and the names of their JSON arrays.
pub struct Words {
    pub changed: (&'static str, &'static str),
    pub gone: (&'static str, &'static str),
    pub come: (&'static str, &'static str),
    pub members: [&'static str; 3],
}

fn row_at(rows: &[u8], place: usize) -> &[u8] {
    &rows[place * ROW..][..ROW]
}

/// Rows that are read at a time.
const PART: usize = 1 << 13;

impl Differences<'_> {
    /// Compares two lists of rows in rising order of key. So many rows before are read in parts: `read` fills a buffer from a
    /// row on.
    pub fn between<'a>(
        before: usize,
        mut read: impl FnMut(usize, &mut [u8]) -> Result<(), Failure>,
        after: &'a [u8],
    ) -> Result<Differences<'a>, Failure> {
        let mut found = Differences {
            after,
            changed: Vec::new(),
            gone: Vec::new(),
            come: Vec::new(),
        };
        let mut part = vec![0; PART.min(before) * ROW];
        let mut to = 0;
        for first in (0..before).step_by(PART) {
            let part = &mut part[..PART.min(before - first) * ROW];
            read(first, part)?;
            let (rows, _) = part.as_chunks::<ROW>();
            for (place, row) in (first..).zip(rows) {
                to = found.take(place, row, to);
            }
        }
        found.come.extend(to..after.len() / ROW);
        Ok(found)
    }

    /// Takes a row from before; the row after that is next, and the answer is the next then.
    fn take(&mut self, place: usize, row: &[u8; ROW], mut to: usize) -> usize {
        let rows = self.after.len() / ROW;
        while to < rows && row_at(self.after, to)[..KEY] < row[..KEY] {
            self.come.push(to);
            to += 1;
        }
        if to == rows || row_at(self.after, to)[..KEY] != row[..KEY] {
            self.gone.push((place, *row));
            return to;
        }
        if row_at(self.after, to) != row {
            self.changed.push(((place, *row), to));
        }
        to + 1
    }

    /// The fields in which a row differs.
    fn fields<'a>(&'a self, old: &'a [u8], to: usize) -> impl Iterator<Item = &'static Field> + 'a {
        let new = row_at(self.after, to);
        let differs = move |field: &&Field| field.of(old) != field.of(new);
        row::FIELDS.iter().filter(differs)
    }

    pub fn put_text<W: Write>(
        &self,
        screen: &mut Screen<W>,
        words: &Words,
        form: &Form,
    ) -> io::Result<()> {
        put_heading(screen, self.changed.len(), words.changed)?;
        for ((at, old), to) in &self.changed {
            let new = row_at(self.after, *to);
            put_row(screen, *at, old, form)?;
            for field in self.fields(old, *to) {
                let (was, is) = (form.field(field, old), form.field(field, new));
                let (name, columns) = (field.name, field.columns());
                screen.plain(&format!("    {name} ({columns}): '{was}' becomes '{is}'"))?;
            }
        }
        put_heading(screen, self.gone.len(), words.gone)?;
        for (at, row) in &self.gone {
            put_row(screen, *at, row, form)?;
        }
        put_heading(screen, self.come.len(), words.come)?;
        for &to in &self.come {
            put_row(screen, to, row_at(self.after, to), form)?;
        }
        Ok(())
    }

    pub fn put_json<W: Write>(
        &self,
        json: &mut Json<W>,
        words: &Words,
        form: &Form,
    ) -> io::Result<()> {
        json.name(words.members[0])?;
        json.begin_array()?;
        for ((at, old), to) in &self.changed {
            let new = row_at(self.after, *to);
            begin_json_row(json, *at, old, form)?;
            json.name("fields")?;
            json.begin_array()?;
            for field in self.fields(old, *to) {
                json.begin_object()?;
                json.text_of("field", field.name)?;
                json.text_of("was", &form.field(field, old))?;
                json.text_of("becomes", &form.field(field, new))?;
                json.end_object()?;
            }
            json.end_array()?;
            json.end_object()?;
        }
        json.end_array()?;
        let gone = self.gone.iter().map(|(at, row)| (*at, &row[..]));
        put_json_rows(json, words.members[1], gone, form)?;
        let come = self.come.iter().map(|&to| (to, row_at(self.after, to)));
        put_json_rows(json, words.members[2], come, form)
    }
}

/// A blank line and how many rows follow, where any do.
fn put_heading<W: Write>(
    screen: &mut Screen<W>,
    rows: usize,
    words: (&str, &str),
) -> io::Result<()> {
    if rows == 0 {
        return Ok(());
    }
    screen.plain("")?;
    screen.line(Style::Heading, &headed(rows as u64, words))
}

fn key_of(row: &[u8], form: &Form) -> String {
    let mut key = String::new();
    form.put_key(&[row::STATE, row::SSN, row::CASE_TYPE], row, &mut key);
    key
}

/// `row 3  OH*****6789N  SMITH, JOHN`.
fn put_row<W: Write>(
    screen: &mut Screen<W>,
    place: usize,
    row: &[u8],
    form: &Form,
) -> io::Result<()> {
    let mut text = format!("row {}  {}  ", place + 1, key_of(row, form));
    form.put_name(&row::LAST_NAME, &row::FIRST_NAME, row, &mut text);
    screen.plain(&text)
}

/// An array of rows by their places.
fn put_json_rows<'a, W: Write>(
    json: &mut Json<W>,
    member: &'static str,
    rows: impl Iterator<Item = (usize, &'a [u8])>,
    form: &Form,
) -> io::Result<()> {
    json.name(member)?;
    json.begin_array()?;
    for (place, row) in rows {
        begin_json_row(json, place, row, form)?;
        json.end_object()?;
    }
    json.end_array()
}

/// The front of a row's object: its number and its key.
fn begin_json_row<W: Write>(
    json: &mut Json<W>,
    place: usize,
    row: &[u8],
    form: &Form,
) -> io::Result<()> {
    json.begin_object()?;
    json.number_of("row", place as u64 + 1)?;
    json.text_of("key", &key_of(row, form))
}

#[cfg(test)]
mod tests {
    use super::*;

    /// A row whose key and field begin with these bytes.
    fn row(key: u8, field: u8) -> Vec<u8> {
        let mut row = vec![0x40; ROW];
        (row[0], row[65]) = (key, field);
        row
    }

    fn between<'a>(before: &'a [u8], after: &'a [u8]) -> Differences<'a> {
        let read = |first: usize, part: &mut [u8]| {
            part.copy_from_slice(&before[first * ROW..][..part.len()]);
            Ok(())
        };
        let found = Differences::between(before.len() / ROW, read, after);
        found.expect("a list can be read")
    }

    #[test]
    fn rows_changed_gone_and_come() {
        let before = [row(1, 0), row(2, 0), row(4, 0), row(5, 0)].concat();
        let after = [row(1, 0), row(3, 0), row(4, 1), row(6, 0), row(7, 0)].concat();
        let found = between(&before, &after);
        let ((place, old), to) = &found.changed[0];
        assert_eq!((*place, *to, found.changed.len()), (2, 2, 1));
        let gone: Vec<usize> = found.gone.iter().map(|(place, _)| *place).collect();
        assert_eq!(gone, [1, 3]);
        assert_eq!(found.come, [1, 3, 4]);
        let names: Vec<&str> = found.fields(old, *to).map(|field| field.name).collect();
        assert_eq!(names, ["Arrearage Amount"]);
        let same = between(&before, &before);
        assert_eq!(same.changed.len() + same.gone.len() + same.come.len(), 0);
        let none = between(&before, &[]);
        assert_eq!((none.gone.len(), none.come.len()), (4, 0));
    }

    #[test]
    fn rows_over_several_parts() {
        let many = |odd: u8| -> Vec<u8> {
            let row = |number: usize| {
                let mut row = row(0, odd * u8::from(number % 5000 == 1));
                row[..8].copy_from_slice(&(number as u64).to_be_bytes());
                row
            };
            (0..2 * PART + 7).flat_map(row).collect()
        };
        let (before, after) = (many(0), many(1));
        let found = between(&before, &after);
        let places: Vec<usize> = found.changed.iter().map(|(_, to)| *to).collect();
        assert_eq!(places, [1, 5001, 10_001, 15_001]);
        assert_eq!(found.gone.len() + found.come.len(), 0);
    }
}
