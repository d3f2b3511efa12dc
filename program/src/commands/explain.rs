//! explain: a refusal or a code in words.

use std::io::{self, Write};

use fantanolive::{code_text, refusal_text, Refusal, Text, VERSION};

use crate::arguments::Arguments;
use crate::commands::output::printed;
use crate::failure::{Failure, Status};
use crate::progress::Progress;
use crate::report::json::Json;
use crate::report::problem::{put_json_words, put_words};
use crate::report::screen::{Screen, Style};
use crate::report::summary::{schema_of, CARRIED_OUT};

pub fn run(arguments: &Arguments, progress: &Progress) -> Result<Status, Failure> {
    let given = arguments.operand(0).to_string_lossy();
    let number: u32 = given
        .parse()
        .map_err(|_| arguments.wrong(format!("NUMBER is a number, not '{given}'")))?;
    let (refusal, code) = (arguments.flag("--refusal"), arguments.flag("--code"));
    let both = refusal == code;
    let refusal = refusal_text(u64::from(number)).filter(|_| both || refusal);
    let code = code_text(number).filter(|_| both || code);
    if refusal.is_none() && code.is_none() {
        let known = format!("refusals are {}, codes 1 to 18, 51 and 52", refusals());
        return Err(arguments.wrong(format!("no such number: {number}; {known}")));
    }
    let found = [("refusal", refusal), ("code", code)];
    printed(
        arguments,
        progress,
        |screen| put_text(screen, found),
        |json| {
            json.text_of("command", "explain")?;
            json.text_of("version", VERSION)?;
            json.text_of("schema", &schema_of("explain"))?;
            json.text_of("outcome", CARRIED_OUT)?;
            json.number_of("status", Status::Done as u64)?;
            put_json(json, found)
        },
    )?;
    Ok(Status::Done)
}

/// The numbers of the refusals, those in a row by the first and the last: `1 to 24, 27 to 28`.
fn refusals() -> String {
    let numbers = Refusal::ALL.map(Refusal::number);
    let rows = numbers.chunk_by(|one, next| one + 1 == *next);
    let shown = |row: &[u64]| match row {
        [first, .., last] => format!("{first} to {last}"),
        one => format!("{}", one[0]),
    };
    rows.map(shown).collect::<Vec<String>>().join(", ")
}

type Found = [(&'static str, Option<&'static Text>); 2];

fn put_text<W: Write>(screen: &mut Screen<W>, found: Found) -> io::Result<()> {
    let known = found
        .into_iter()
        .filter_map(|(what, text)| Some((what, text?)));
    let are_two = known.clone().count() > 1;
    for (at, (what, text)) in known.enumerate() {
        if at > 0 {
            screen.plain("")?;
        }
        if are_two {
            screen.line(Style::Heading, &heading(what, text.number))?;
        }
        let start = format!("{what} {}: ", text.number);
        screen.wrapped(Style::Heading, &start, text.wrong, 2)?;
        put_words(screen, text)?;
    }
    Ok(())
}

/// What a number is that is both: `explain 17 --code` gives one of them alone.
fn heading(what: &str, number: u32) -> String {
    let of = match what {
        "refusal" => "a refusal of a whole call",
        _ => "a code of a record",
    };
    format!("{number} as {of} (--{what})")
}

fn put_json<W: Write>(json: &mut Json<W>, found: Found) -> io::Result<()> {
    for (what, text) in found {
        json.name(what)?;
        match text {
            None => json.null()?,
            Some(text) => {
                json.begin_object()?;
                json.number_of("number", u64::from(text.number))?;
                put_json_words(json, text)?;
                json.end_object()?;
            }
        }
    }
    Ok(())
}
