//! Fields of records: how they are read and written. The records themselves are in [`crate::layouts`].

use std::error::Error;
use std::fmt;

use crate::code_page::{CHARACTERS, CODES};

/// What the bytes of a field are.
#[derive(Clone, Copy, Debug, PartialEq, Eq, Hash)]
pub enum Kind {
    /// Characters, spaces behind them.
    Text,
    /// Digits with leading zeros.
    Number,
    /// Nine digits, not to be shown.
    Ssn,
    /// Dollars and cents: digits, two decimal places assumed, the last of which may carry a plus sign.
    Amount,
    /// One byte whose bits are exclusions; no character.
    Set,
    /// CCYYMMDD, or blank.
    Date,
    /// Spaces.
    Filler,
}

/// A field of a layout. Columns count from 1.
#[derive(Clone, Copy, Debug, PartialEq, Eq, Hash)]
pub struct Field {
    /// Its name in `layouts.json`, which is that of the struct's field.
    pub name: &'static str,
    /// Its name in the charts.
    pub title: &'static str,
    /// Its first column.
    pub first: usize,
    /// Its last column.
    pub last: usize,
    /// What its bytes are.
    pub kind: Kind,
}

/// A row or record: its fields as texts, and its bytes.
pub trait Record: Sized {
    /// The layout's name in `layouts.json`.
    const NAME: &'static str;
    /// How many bytes a record has.
    const WIDTH: usize;
    /// The fields, in order and without gaps.
    const FIELDS: &'static [Field];

    /// Reads a record of `WIDTH` bytes in EBCDIC; none where it has another length. Whatever its bytes are, [`Record::write`]
    /// gives them back.
    fn read(record: &[u8]) -> Option<Self>;

    /// The record in EBCDIC, spaces behind each text.
    ///
    /// # Errors
    ///
    /// The first field whose text is longer than its columns, or has a character that EBCDIC (code page 037) has not.
    fn write(&self) -> Result<Vec<u8>, Unfit>;

    /// The fields as texts, in the order of `FIELDS`; an exclusion set by the names in it.
    fn texts(&self) -> Vec<String>;

    /// The fields as numbers, in the same order: digits, an amount in cents, the byte of a set; none for the others, and where
    /// the columns aren't digits.
    fn numbers(&self) -> Vec<Option<u64>>;
}

/// A text or number that doesn't fit its field.
#[derive(Clone, Copy, Debug, PartialEq, Eq, Hash)]
pub struct Unfit {
    /// The field's name.
    pub field: &'static str,
    /// How many columns it has.
    pub width: usize,
}

impl fmt::Display for Unfit {
    fn fmt(&self, f: &mut fmt::Formatter<'_>) -> fmt::Result {
        write!(f, "{} does not fit its {} columns", self.field, self.width)
    }
}

impl Error for Unfit {}

/// Reads columns as text, without the spaces at their end. The columns are inside the record.
pub(crate) fn text(record: &[u8], first: usize, last: usize) -> String {
    let bytes = record.get(first - 1..last).unwrap_or_default();
    let end = bytes.iter().rposition(|&byte| byte != 0x40);
    let shown = &bytes[..end.map_or(0, |place| place + 1)];
    shown
        .iter()
        .map(|&byte| char::from(CHARACTERS[usize::from(byte)]))
        .collect()
}

/// Puts a text into columns of a record of spaces.
pub(crate) fn put(record: &mut [u8], field: &Field, text: &str) -> Result<(), Unfit> {
    let width = field.last + 1 - field.first;
    let unfit = Unfit {
        field: field.name,
        width,
    };
    let columns = record.get_mut(field.first - 1..field.last).ok_or(unfit)?;
    let mut characters = text.chars();
    for (column, character) in columns.iter_mut().zip(characters.by_ref()) {
        let place = usize::try_from(u32::from(character)).map_err(|_| unfit)?;
        *column = *CODES.get(place).ok_or(unfit)?;
    }
    match characters.next() {
        None => Ok(()),
        Some(_) => Err(unfit),
    }
}

/// The number of a text of so many digits.
pub(crate) fn number(text: &str, width: usize) -> Option<u64> {
    let is_digits = text.len() == width && text.bytes().all(|byte| byte.is_ascii_digit());
    is_digits.then(|| text.parse().ok()).flatten()
}

/// The cents of a text of so many digits, the last of which may carry a plus sign: `{` or `A` to `I`.
pub(crate) fn cents(text: &str, width: usize) -> Option<u64> {
    let (front, last) = (text.get(..width.checked_sub(1)?)?, text.chars().last()?);
    let digit = match last {
        '0'..='9' => u64::from(last) - u64::from('0'),
        '{' => 0,
        'A'..='I' => u64::from(last) - u64::from('A') + 1,
        _ => return None,
    };
    (text.len() == width).then_some(())?;
    Some(number(front, width - 1)? * 10 + digit)
}

/// A number in digits with leading zeros.
pub(crate) fn digits(field: &'static str, width: usize, number: u64) -> Result<String, Unfit> {
    let text = format!("{number:0width$}");
    if text.len() > width {
        return Err(Unfit { field, width });
    }
    Ok(text)
}

/// The names in an exclusion set, the lowest bit first, commas between them.
pub(crate) fn set_text(set: u8) -> String {
    let names = crate::layouts::EXCLUSIONS.iter().enumerate();
    let named: Vec<&str> = names
        .filter(|(bit, _)| set >> bit & 1 == 1)
        .map(|(_, name)| *name)
        .collect();
    named.join(",")
}

/// A text whose runs of nine digits or more, hyphens between them or not, have their last four digits alone.
fn masked(text: &str) -> String {
    let mut out = String::new();
    let mut run = String::new();
    for character in text.chars().chain(['\0']) {
        if character.is_ascii_digit() || (character == '-' && !run.is_empty()) {
            run.push(character);
            continue;
        }
        out.push_str(&masked_run(&run));
        run.clear();
        if character != '\0' {
            out.push(character);
        }
    }
    out
}

fn masked_run(run: &str) -> String {
    let count = run.bytes().filter(u8::is_ascii_digit).count();
    if count < 9 {
        return run.to_string();
    }
    let mut left = count;
    let hide = |character: char| {
        if !character.is_ascii_digit() {
            return character;
        }
        left -= 1;
        if left < 4 {
            character
        } else {
            '*'
        }
    };
    run.chars().map(hide).collect()
}

/// Shows a record for people who debug: its fields that aren't blank, without SSNs.
pub(crate) fn debug<R: Record>(record: &R, name: &str, f: &mut fmt::Formatter<'_>) -> fmt::Result {
    let mut shown = f.debug_struct(name);
    for (field, text) in R::FIELDS.iter().zip(record.texts()) {
        let text = match field.kind {
            Kind::Ssn => text
                .char_indices()
                .map(|(place, character)| if place < 5 { '*' } else { character })
                .collect(),
            Kind::Number | Kind::Amount => text,
            _ => masked(&text),
        };
        if !text.is_empty() {
            shown.field(field.name, &text);
        }
    }
    shown.finish()
}
