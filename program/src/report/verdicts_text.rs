//! A judged batch as text: the codes by how often they stand, the offices, and the first records.

use std::io::{self, Write};

use fantanolive::{code_text, codes, ERRORS, WARNINGS};

use crate::failure::{counted, grouped};
use crate::number::put_number;
use crate::records::code_fields::is_blank;
use crate::records::columns::detail;
use crate::report::listing::Listing;
use crate::report::screen::{Screen, Style};
use crate::report::verdicts::{shown_office, wrong_of, Coded, Verdicts};

/// How many codes are told with what to do.
const EXPLAINED: usize = 3;

pub fn put_text<W: Write>(
    verdicts: &Verdicts,
    screen: &mut Screen<W>,
    listing: &Listing,
) -> io::Result<()> {
    put_codes(verdicts, screen)?;
    if listing.by_office {
        put_offices(verdicts, screen)?;
    }
    let to_fix = List {
        heading: ("record to fix", "records to fix"),
        set: ERRORS,
        style: Style::Error,
    };
    put_list(verdicts, screen, listing, &to_fix)?;
    let warned = List {
        heading: (
            "record accepted with a warning",
            "records accepted with a warning",
        ),
        set: WARNINGS,
        style: Style::Warning,
    };
    put_list(verdicts, screen, listing, &warned)
}

/// The codes, the most frequent first; what to do with the first of them.
fn put_codes<W: Write>(verdicts: &Verdicts, screen: &mut Screen<W>) -> io::Result<()> {
    let counts = verdicts.counts();
    if counts.is_empty() {
        return Ok(());
    }
    screen.plain("")?;
    screen.line(Style::Heading, "Codes, the most frequent first")?;
    for (place, &(code, count)) in counts.iter().enumerate() {
        let heading = format!("{}: {}", wrong_of(code), counted(count, "record"));
        screen.wrapped(Style::Plain, &format!("{code:02} "), &heading, 3)?;
        if let Some(text) = code_text(code).filter(|_| place < EXPLAINED) {
            screen.wrapped(Style::Plain, "   to fix: ", text.mend, 11)?;
        }
    }
    if counts.len() > EXPLAINED {
        screen.plain("`fantanolive explain NUMBER --code` says how to fix the others")?;
    }
    Ok(())
}

fn put_offices<W: Write>(verdicts: &Verdicts, screen: &mut Screen<W>) -> io::Result<()> {
    let offices = verdicts.offices();
    if offices.is_empty() {
        return Ok(());
    }
    screen.plain("")?;
    screen.line(Style::Heading, "By local office")?;
    screen.plain("office             to fix      warned")?;
    for (office, errors, warnings) in offices {
        let office = shown_office(&office);
        let (errors, warnings) = (grouped(errors), grouped(warnings));
        screen.plain(&format!("{office:<13}{errors:>12}{warnings:>12}"))?;
    }
    Ok(())
}

/// The records with a code of a set, with the heading for one and for several.
struct List {
    heading: (&'static str, &'static str),
    set: u64,
    style: Style,
}

/// The first records of a list; nothing where there are none.
fn put_list<W: Write>(
    verdicts: &Verdicts,
    screen: &mut Screen<W>,
    listing: &Listing,
    list: &List,
) -> io::Result<()> {
    let count = verdicts.count(list.set);
    if count == 0 {
        return Ok(());
    }
    listing.put_heading(screen, count, list.heading)?;
    let mut lines = Lines::new(verdicts, list.style, listing.by_office);
    if listing.by_office {
        let first = verdicts.coded_by_office(list.set).into_iter();
        verdicts.each(first.take(listing.most), |coded| lines.put(coded, screen))?;
    } else {
        let first = verdicts.coded(list.set).take(listing.most);
        verdicts.each(first, |coded| lines.put(coded, screen))?;
    }
    listing.put_rest(screen, count)
}

/// The lines of records.
struct Lines<'a> {
    verdicts: &'a Verdicts<'a>,
    style: Style,
    /// Whether the office of a case stands where a record has none.
    by_office: bool,
    /// How the line of each code begins: its number and what is wrong.
    starts: Vec<String>,
    text: String,
}

/// How many characters of such a start stay in the first line.
const NUMBER: usize = 7;

impl<'a> Lines<'a> {
    fn new(verdicts: &'a Verdicts, style: Style, by_office: bool) -> Lines<'a> {
        let start = |code| format!("    {code:02} {}: ", wrong_of(code));
        Lines {
            verdicts,
            style,
            by_office,
            starts: (0..64).map(start).collect(),
            text: String::new(),
        }
    }

    /// `record 2  OH*****6789N  type M  SMYTH, JOHN  case ID A1  office 003`, and below it a line per code.
    fn put<W: Write>(&mut self, coded: &Coded, screen: &mut Screen<W>) -> io::Result<()> {
        let text = &mut self.text;
        text.clear();
        put_record(self.verdicts, coded, text, self.by_office);
        screen.line(self.style, text)?;
        for code in codes(coded.verdict) {
            text.clear();
            text.push_str(&self.starts[code as usize]);
            self.verdicts.put_sent_words(code, coded, text);
            screen.broken(Style::Plain, text, NUMBER, NUMBER)?;
        }
        Ok(())
    }
}

fn put_record(verdicts: &Verdicts, coded: &Coded, text: &mut String, by_office: bool) {
    let (form, record) = (&verdicts.of_details, coded.detail);
    text.push_str("record ");
    put_number(coded.number as u64 + 1, text);
    text.push_str("  ");
    verdicts.put_key(coded, text);
    text.push_str("  type ");
    form.put(&detail::TRANSACTION_TYPE, record, text);
    text.push_str("  ");
    form.put_name(&detail::LAST_NAME, &detail::FIRST_NAME, record, text);
    if !is_blank(&detail::CASE_ID, record) {
        text.push_str("  case ID ");
        form.put(&detail::CASE_ID, record, text);
    }
    let has_own = !is_blank(&detail::LOCAL_CODE, record);
    if has_own || by_office {
        let start = text.len();
        form.put_text(verdicts.office(record), text);
        let place = if text.len() > start { "  office " } else { "" };
        text.insert_str(start, place);
    }
}
