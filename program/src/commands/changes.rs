//! What the options of edit want of a row.

use std::os::unix::ffi::OsStrExt;

use fantanolive::{code_text, codes, to_ebcdic, NotConverted};

use crate::arguments::Arguments;
use crate::code_page::argument;
use crate::failure::Failure;
use crate::quote::quoted;
use crate::records::columns::{detail, row, Field};
use crate::records::exclusion_words::set_of;
use crate::report::notes::refused;

/// The options that name what is wanted.
const OPTIONS: [&str; 4] = ["--case-id", "--local-code", "--exclusions", "--amount"];

/// The most dollars that a row has.
const MOST_DOLLARS: u64 = 99_999_999;

/// The fields that are wanted, each with its bytes.
pub struct Changes(Vec<(Field, Vec<u8>)>);

impl Changes {
    pub fn of(arguments: &Arguments) -> Result<Changes, Failure> {
        if !OPTIONS.iter().any(|option| arguments.flag(option)) {
            let list = OPTIONS.join(", ");
            return Err(arguments.wrong(format!("nothing is wanted: give one of {list}")));
        }
        let mut changes = Vec::new();
        changes.extend(case_id(arguments)?);
        changes.extend(local_code(arguments)?);
        changes.extend(exclusions(arguments)?);
        changes.extend(balance(arguments)?);
        Ok(Changes(changes))
    }

    /// A row with these changes.
    pub fn made_to(&self, row: &[u8]) -> Vec<u8> {
        let mut wanted = row.to_vec();
        for (field, bytes) in &self.0 {
            field.set(&mut wanted, bytes);
        }
        wanted
    }
}

/// The text of an option, of at most so many characters, with spaces behind it up to this width.
fn filled(arguments: &Arguments, option: &str, width: usize) -> Result<Option<Vec<u8>>, Failure> {
    let Some(value) = arguments.value(option) else {
        return Ok(None);
    };
    let mut text = value.as_bytes().to_vec();
    if text.len() > width {
        let what = format!("{option} has at most {width} characters");
        return Err(arguments.wrong(what));
    }
    text.resize(width, b' ');
    Ok(Some(text))
}

fn width(field: &Field) -> usize {
    field.last + 1 - field.first
}

fn case_id(arguments: &Arguments) -> Result<Option<(Field, Vec<u8>)>, Failure> {
    let Some(text) = filled(arguments, "--case-id", width(&row::CASE_ID))? else {
        return Ok(None);
    };
    let mut bytes = vec![0; text.len()];
    match to_ebcdic(&text, &mut bytes) {
        Ok(()) => Ok(Some((row::CASE_ID, bytes))),
        Err(NotConverted::NoCounterpart { place }) => {
            let at = usize::try_from(place).unwrap_or_default();
            let value = String::from_utf8_lossy(&text);
            let value = quoted(value.trim_end());
            let wrong = wrong_character(&text[at..]);
            let what = format!("--case-id: character {} of {value} is {wrong}", at + 1);
            Err(arguments.wrong(what))
        }
        Err(other) => Err(refused(other.refusal(), Vec::new())),
    }
}

/// The first character of a text that has no counterpart in EBCDIC, and what to do.
fn wrong_character(text: &[u8]) -> String {
    let text = String::from_utf8_lossy(text);
    match text.chars().next() {
        Some(c @ 'a'..='z') => format!("'{c}', a lower case letter: use upper case"),
        Some(c) => format!("'{c}': use A to Z, digits, space and - , . ( ) / & ' #"),
        None => String::new(),
    }
}

fn local_code(arguments: &Arguments) -> Result<Option<(Field, Vec<u8>)>, Failure> {
    let field = row::LOCAL_CODE;
    match arguments.value("--local-code") {
        None => Ok(None),
        Some(value) if value.len() == width(&field) => {
            Ok(Some((field, argument(value.as_bytes()))))
        }
        Some(_) => Err(arguments.wrong("--local-code wants three digits")),
    }
}

fn exclusions(arguments: &Arguments) -> Result<Option<(Field, Vec<u8>)>, Failure> {
    let Some(text) = filled(arguments, "--exclusions", width(&detail::EXCLUSIONS))? else {
        return Ok(None);
    };
    match set_of(&text) {
        Ok(set) => Ok(Some((row::EXCLUSIONS, vec![set]))),
        Err(verdict) => {
            let mut words = wrong_words(&String::from_utf8_lossy(&text));
            let texts = codes(verdict).filter_map(code_text);
            words.extend(texts.map(|text| format!("{}; {}", text.wrong, text.mend)));
            Err(arguments.wrong(format!("--exclusions: {}", words.join("; "))))
        }
    }
}

/// The words of a list that the library doesn't take by themselves.
fn wrong_words(text: &str) -> Vec<String> {
    let taken = |word: &str| set_of(format!("{word:<40}").as_bytes()).is_ok();
    let words = text.split([',', ' ']).filter(|word| !taken(word));
    let told = words.map(|word| {
        let upper = word.to_ascii_uppercase();
        match upper != word && taken(&upper) {
            true => format!("{} is to be in upper case, {upper}", quoted(word)),
            false => format!("{} is none of the words", quoted(word)),
        }
    });
    told.collect()
}

/// Whole dollars with 00 cents; a row without dollars is deleted.
fn balance(arguments: &Arguments) -> Result<Vec<(Field, Vec<u8>)>, Failure> {
    let Some(value) = arguments.value("--amount") else {
        return Ok(Vec::new());
    };
    let Ok(Some(dollars)) = arguments.number("--amount") else {
        let value = quoted(&value.to_string_lossy());
        let what = format!("--amount wants whole dollars, digits only, not {value}");
        return Err(arguments.wrong(what));
    };
    if dollars > MOST_DOLLARS {
        let what = format!("--amount is at most {MOST_DOLLARS}, in whole dollars");
        return Err(arguments.wrong(what));
    }
    let status = if dollars == 0 { "D" } else { " " };
    let texts = [
        (row::ARREARAGE, format!("{dollars:08}")),
        (row::CENTS, "00".to_string()),
        (row::STATUS, status.to_string()),
    ];
    let list = texts.map(|(field, text)| (field, argument(text.as_bytes())));
    Ok(list.to_vec())
}
