//! A difference in words: the inputs record by record, what each engine answered, and where they part.

use crate::calls::{Argument, Content};
use crate::case::{numbers_of, Answered, Case, Outcome, Value};
use crate::code_page;
use crate::compare::Where;
use crate::explain::explain;
use crate::fields::layout;
use crate::protocol::hexadecimal;
use crate::run::Found;
use crate::text::record_width;

fn codes(set: u64) -> String {
    let codes = (0..64).filter(|code| set >> code & 1 == 1);
    let codes: Vec<String> = codes.map(|code| format!("{code:02}")).collect();
    match codes.is_empty() {
        true => "no code".to_string(),
        false => codes.join(" "),
    }
}

/// Bytes as text in quotes where all are characters, else in hexadecimal.
fn shown(bytes: &[u8]) -> String {
    match bytes
        .iter()
        .all(|&byte| code_page::character(byte).is_some())
    {
        true => format!("\"{}\"", code_page::text(bytes)),
        false => format!("hexadecimal {}", hexadecimal(bytes)),
    }
}

/// The fields of a record that aren't blank, by name and columns.
fn record_lines(lines: &mut Vec<String>, content: Content, record: &[u8], last: bool) {
    let fields = layout(content, record, last);
    if fields.is_empty() || fields.iter().any(|field| field.last > record.len()) {
        lines.push(format!("    {}", shown(record)));
        return;
    }
    for field in fields {
        let bytes = &record[field.first - 1..field.last];
        let is_blank = bytes.iter().all(|&byte| byte == 0x40);
        if !is_blank {
            let columns = match field.first == field.last {
                true => field.first.to_string(),
                false => format!("{}-{}", field.first, field.last),
            };
            lines.push(format!(
                "    {columns:<8} {:<26} {}",
                field.name,
                shown(bytes)
            ));
        }
    }
}

fn thing(content: Content, last: bool) -> &'static str {
    match content {
        Content::Rows => "row",
        Content::Batch if last => "control record",
        Content::Batch | Content::Records => "detail",
        Content::Lines if last => "last record",
        Content::Lines => "line",
        Content::Contacts => "contact record",
        Content::Keys => "key",
        Content::Locals => "code",
        _ => "record",
    }
}

fn buffer_lines(lines: &mut Vec<String>, case: &Case, name: &str, content: Content, bytes: &[u8]) {
    let width = record_width(content);
    let count = match name {
        "master" => case.count("rows").min((bytes.len() / width) as u64) as usize,
        "table" => case.count("count").min((bytes.len() / width) as u64) as usize,
        _ => bytes.len().div_ceil(width),
    };
    lines.push(format!("  {name}, {} bytes", bytes.len()));
    if matches!(
        content,
        Content::Journal | Content::Ascii | Content::Ebcdic | Content::Field
    ) {
        if !bytes.is_empty() {
            lines.push(format!("    {}", shown(bytes)));
        }
        return;
    }
    let records = bytes.len().div_ceil(width);
    for (at, record) in bytes.chunks(width).take(count.min(12)).enumerate() {
        let last = at + 1 == records;
        lines.push(format!("   {} {}", thing(content, last), at + 1));
        record_lines(lines, content, record, last);
    }
    if count > 12 {
        lines.push(format!("   and {} more", count - 12));
    }
}

/// The case itself.
pub fn case_lines(case: &Case) -> Vec<String> {
    let mut lines = Vec::new();
    for (argument, value) in case.call().arguments.iter().zip(&case.values) {
        match (argument, value) {
            (
                Argument::Buffer {
                    name,
                    content,
                    width: 1,
                    written,
                },
                Value::Bytes(bytes),
            ) => {
                let is_input = !written || *name == "master" || *name == "table";
                match is_input {
                    true => buffer_lines(&mut lines, case, name, *content, bytes),
                    false => lines.push(format!("  {name}, {} bytes of room", bytes.len())),
                }
            }
            (Argument::Buffer { name, width, .. }, Value::Bytes(bytes)) => {
                lines.push(format!(
                    "  {name}, room for {} numbers",
                    bytes.len() / width
                ));
            }
            (Argument::Count { name }, Value::Count(count)) => {
                lines.push(format!("  {name} {count}"))
            }
            _ => {}
        }
    }
    lines
}

fn answer(outcome: &Outcome) -> String {
    match outcome.answer {
        0 => "0, carried out".to_string(),
        number => format!("{number}, refused"),
    }
}

/// What both engines have at the place where they part: ours, then theirs.
fn sides(case: &Case, found: &Found, theirs: &Outcome) -> [String; 2] {
    let both = [&found.ours, theirs];
    match &found.difference.at {
        Where::Verdict { at, .. } => both.map(|one| codes(one.numbers(case, "verdicts")[*at])),
        Where::Number { argument, at, .. } => {
            let width = case.call().arguments[*argument].width();
            both.map(|one| numbers_of(&one.after(case, *argument), width)[*at].to_string())
        }
        Where::Byte {
            argument,
            offset,
            record,
            column,
            ..
        } => {
            let Argument::Buffer { content, .. } = case.call().arguments[*argument] else {
                return Default::default();
            };
            let range = field_range(
                case,
                &found.ours,
                *argument,
                content,
                *offset,
                *record,
                *column,
            );
            both.map(|one| shown(&one.after(case, *argument)[range.clone()]))
        }
        _ => both.map(answer),
    }
}

/// The bytes of the field that a byte is in.
fn field_range(
    case: &Case,
    ours: &Outcome,
    argument: usize,
    content: Content,
    offset: usize,
    record: usize,
    column: usize,
) -> std::ops::Range<usize> {
    let bytes = ours.after(case, argument);
    if record == 0 {
        return offset..(offset + 1).min(bytes.len());
    }
    let start = (record - 1) * record_width(content);
    let spot = crate::fields::spot(content, &bytes, offset);
    match spot.field {
        Some(field) if start + field.last <= bytes.len() => {
            start + field.first - 1..start + field.last
        }
        _ => start + column - 1..start + column,
    }
}

/// Where two engines part, in words.
pub fn place(found: &Found) -> String {
    let case = &found.case;
    let argument = |at: &usize| case.call().arguments[*at].name();
    match &found.difference.at {
        Where::Failure(words) => words.clone(),
        Where::Answer => "the answer".to_string(),
        Where::Number {
            argument: one,
            name,
            ..
        } => format!("{}: {name}", argument(one)),
        Where::Verdict { at, .. } => format!("the verdict on detail {}", at + 1),
        Where::Byte {
            argument: one,
            offset,
            record: 0,
            field,
            ..
        } => {
            format!("{}, byte {offset}: {field}", argument(one))
        }
        Where::Byte {
            argument: one,
            record,
            column,
            field,
            ..
        } => {
            format!(
                "{}, record {record}, column {column}: {field}",
                argument(one)
            )
        }
    }
}

/// A difference as lines: the case, the answers, the place, the sentences.
pub fn lines(found: &Found) -> Vec<String> {
    let case = &found.case;
    let mut lines = vec![format!("{}:", case.call().name)];
    lines.extend(case_lines(case));
    lines.push("answers".to_string());
    lines.push(format!("  ours  {}", answer(&found.ours)));
    match &found.theirs {
        Answered::Failed(words) => lines.push(format!("  other none: {words}")),
        Answered::Outcome(theirs) => {
            lines.push(format!("  other {}", answer(theirs)));
            if found.difference.at != Where::Answer {
                let [ours, other] = sides(case, found, theirs);
                lines.push(format!("they part in {}", place(found)));
                lines.push(format!("  ours  {ours}"));
                lines.push(format!("  other {other}"));
            }
        }
    }
    let sentences = explain(case, &found.difference, &found.ours, &found.theirs);
    if !sentences.is_empty() {
        lines.push("at stake".to_string());
    }
    for one in sentences {
        lines.push(format!(
            "  document {}, {}: {}",
            one.document,
            section(one.section),
            one.words
        ));
        lines.push(format!(
            "    definition: {}",
            one.definition.replace('`', "")
        ));
    }
    lines
}

/// A section without the document's number before it.
fn section(name: &str) -> &str {
    name.strip_prefix("Document 02, ").unwrap_or(name)
}

/// How many details or lines, and how many rows, a case has.
pub fn size(case: &Case) -> (usize, usize) {
    let records = |name: &str, width: usize| match case.has(name) {
        true => (case.bytes(name).len() / width).saturating_sub(1),
        false => 0,
    };
    let details = records("batch", 245) + records("first", 245) + records("second", 245);
    let rows = match case.has("rows") {
        true => case
            .count("rows")
            .min((case.bytes("master").len() / 200) as u64) as usize,
        false => 0,
    };
    (details, rows)
}
