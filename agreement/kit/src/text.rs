//! Cases as text files: `agreement/README.md` describes the form.

use crate::calls::{named, Argument, Content};
use crate::case::{bytes_of, number_bytes, numbers_of, Case, Outcome, Value};
use crate::code_page;
use crate::protocol::{bytes_in, hexadecimal};

const SPACE: u8 = 0x40;

/// A case of a file: what it is there for, and what an engine must make of it.
#[derive(Clone, Debug)]
pub struct Fixed {
    pub name: String,
    pub sentences: Vec<String>,
    pub case: Case,
    pub wanted: Outcome,
}

/// How wide the records of a content are, for a line each.
pub fn record_width(content: Content) -> usize {
    match content {
        Content::Rows => 200,
        Content::Batch | Content::Rejects | Content::Reconciliation | Content::Records => 245,
        Content::Lines => 240,
        Content::Contacts => 220,
        Content::Pages => 132,
        Content::Keys => 12,
        Content::Locals => 3,
        _ => 64,
    }
}

fn is_text(byte: u8) -> bool {
    code_page::character(byte).is_some()
}

/// The bytes of a record that differ from its ground, as `COLUMN:"TEXT"` or `COLUMN:HEXADECIMAL`.
fn items(record: &[u8], ground: u8, as_text: bool) -> String {
    let mut text = String::new();
    let mut at = 0;
    while at < record.len() {
        if record[at] == ground {
            at += 1;
            continue;
        }
        let start = at;
        let words = as_text && is_text(record[at]);
        let belongs = |&byte: &u8| byte != ground && (as_text && is_text(byte)) == words;
        let mut end = at;
        while end < record.len() {
            let run = record[end..].iter().take_while(|byte| belongs(byte));
            end += run.count();
            // a space or two between words
            let gap = record[end..].iter().take_while(|&&byte| byte == ground);
            let gap = gap.count();
            let goes_on = words && ground == SPACE && (1..=2).contains(&gap);
            if !goes_on || !record.get(end + gap).is_some_and(belongs) {
                break;
            }
            end += gap;
        }
        let piece = &record[start..end];
        let shown = match words {
            true => format!("\"{}\"", code_page::text(piece)),
            false => hexadecimal(piece),
        };
        text += &format!(" {}:{shown}", start + 1);
        at = end;
    }
    text
}

/// The byte that most of a record has.
fn ground_of(record: &[u8]) -> u8 {
    let mut counts = [0usize; 256];
    record.iter().for_each(|&b| counts[usize::from(b)] += 1);
    let most = (0..=255u8).max_by_key(|&byte| counts[usize::from(byte)]);
    let most = most.unwrap_or(SPACE);
    match counts[usize::from(most)] * 2 > record.len() {
        true => most,
        false => SPACE,
    }
}

fn record_line(record: &[u8], as_text: bool) -> String {
    let ground = ground_of(record);
    let of = match ground {
        SPACE => String::new(),
        byte => format!(" of {byte:02x}"),
    };
    format!("{}{of}{}", record.len(), items(record, ground, as_text))
}

/// The lines of a buffer, each for a record; the same one several times in a row is a line with its number.
pub fn lines(bytes: &[u8], content: Content) -> Vec<String> {
    let as_text = content != Content::Ascii && content != Content::Journal;
    let records = bytes.chunks(record_width(content));
    let records: Vec<String> = records.map(|one| record_line(one, as_text)).collect();
    let same = records.chunk_by(|one, next| one == next);
    same.map(|same| match same.len() {
        1 => same[0].clone(),
        count => format!("{count} x {}", same[0]),
    })
    .collect()
}

fn numbers_text(numbers: &[u64]) -> String {
    let same = numbers.chunk_by(|one, next| one == next);
    same.map(|same| match same.len() {
        1 => format!(" {}", same[0]),
        count => format!(" {count}x{}", same[0]),
    })
    .collect()
}

/// An argument's name and value, over one line or several.
fn argument_text(argument: &Argument, bytes: &[u8]) -> String {
    let name = argument.name();
    if let Argument::Buffer {
        content, width: 1, ..
    } = argument
    {
        let mut text = format!("{name} {} bytes\n", bytes.len());
        for line in lines(bytes, *content) {
            text += &format!("  {line}\n");
        }
        return text;
    }
    let numbers = numbers_of(bytes, argument.width());
    let count = numbers.len();
    format!("{name} {count} numbers{}\n", numbers_text(&numbers))
}

/// A case in the form of the files.
pub fn written(fixed: &Fixed) -> String {
    let case = &fixed.case;
    let mut text = format!("case {}\n", fixed.name);
    for sentence in &fixed.sentences {
        text += &format!("sentence {sentence}\n");
    }
    text += &format!("call {}\n", case.call().name);
    for (argument, value) in case.call().arguments.iter().zip(&case.values) {
        text += &match value {
            Value::Count(count) => format!("{} {count}\n", argument.name()),
            _ => argument_text(argument, &bytes_of(value)),
        };
    }
    text += &format!("answer {}\n", fixed.wanted.answer);
    for (argument, left) in case.call().arguments.iter().zip(&fixed.wanted.left) {
        if let Some(bytes) = left {
            text += &format!("left {}", argument_text(argument, bytes));
        }
    }
    text + "end\n"
}

/// The lines of a file, with the number of the present one for messages.
struct Lines<'a> {
    lines: Vec<&'a str>,
    at: usize,
}

impl<'a> Lines<'a> {
    /// The next line that says something.
    fn next(&mut self) -> Option<&'a str> {
        loop {
            let line = self.lines.get(self.at)?;
            self.at += 1;
            if !line.trim().is_empty() && !line.starts_with('#') {
                return Some(line);
            }
        }
    }

    /// The next line if it is indented.
    fn next_indented(&mut self) -> Option<&'a str> {
        let line = self.lines.get(self.at)?;
        let inside = line.strip_prefix("  ")?;
        self.at += 1;
        Some(inside)
    }

    fn wrong<T>(&self, what: &str) -> Result<T, String> {
        Err(format!("line {}: {what}", self.at))
    }
}

/// One item of a record's line: its column and bytes, and what stands behind it.
fn item(text: &str) -> Option<(usize, Vec<u8>, &str)> {
    let (column, rest) = text.split_once(':')?;
    let column: usize = column.parse().ok()?;
    if let Some(quoted) = rest.strip_prefix('"') {
        let (words, rest) = quoted.split_once('"')?;
        let bytes: Option<Vec<u8>> = words.chars().map(code_page::byte).collect();
        return Some((column, bytes?, rest.trim_start()));
    }
    let (digits, rest) = rest.split_once(' ').unwrap_or((rest, ""));
    Some((column, bytes_in(digits)?, rest.trim_start()))
}

/// The bytes of one line of a buffer.
fn record_in(line: &str) -> Option<Vec<u8>> {
    let (times, line) = match line.split_once(" x ") {
        Some((times, rest)) if times.bytes().all(|b| b.is_ascii_digit()) => {
            (times.parse().ok()?, rest)
        }
        _ => (1usize, line),
    };
    let (length, mut rest) = line.split_once(' ').unwrap_or((line, ""));
    let mut ground = SPACE;
    if let Some(of) = rest.strip_prefix("of ") {
        let (digits, behind) = of.split_once(' ').unwrap_or((of, ""));
        ground = *bytes_in(digits)?.first()?;
        rest = behind;
    }
    let mut record = vec![ground; length.parse().ok()?];
    while !rest.is_empty() {
        let (column, bytes, behind) = item(rest)?;
        let start = column.checked_sub(1)?;
        let place = record.get_mut(start..start + bytes.len())?;
        place.copy_from_slice(&bytes);
        rest = behind;
    }
    Some(record.repeat(times))
}

fn numbers_in(text: &str) -> Option<Vec<u64>> {
    let mut numbers = Vec::new();
    for word in text.split_whitespace() {
        match word.split_once('x') {
            Some((count, number)) => {
                let number: u64 = number.parse().ok()?;
                numbers.extend(std::iter::repeat_n(number, count.parse().ok()?));
            }
            None => numbers.push(word.parse().ok()?),
        }
    }
    Some(numbers)
}

/// The value of an argument whose line has this behind its name.
fn value_in(lines: &mut Lines, argument: &Argument, text: &str) -> Result<Value, String> {
    if matches!(argument, Argument::Count { .. }) {
        return match text.parse() {
            Ok(count) => Ok(Value::Count(count)),
            Err(_) => lines.wrong("no number"),
        };
    }
    let (count, rest) = text.split_once(' ').unwrap_or((text, ""));
    let Ok(count) = count.parse::<usize>() else {
        return lines.wrong("no length");
    };
    if let Some(numbers) = rest.strip_prefix("numbers") {
        let Some(numbers) = numbers_in(numbers).filter(|numbers| numbers.len() == count) else {
            return lines.wrong("other numbers than told");
        };
        return Ok(match argument {
            Argument::Result { .. } => Value::Result(numbers),
            _ => Value::Bytes(number_bytes(&numbers, argument.width())),
        });
    }
    let mut bytes = Vec::new();
    while let Some(line) = lines.next_indented() {
        let Some(record) = record_in(line) else {
            return lines.wrong("no record");
        };
        bytes.extend(record);
    }
    match bytes.len() == count {
        true => Ok(Value::Bytes(bytes)),
        false => lines.wrong("another length than told"),
    }
}

/// The arguments of a call, up to its answer, and what is left, up to the end.
fn body(
    lines: &mut Lines,
    name: String,
    sentences: Vec<String>,
    call: &str,
) -> Result<Fixed, String> {
    let Some(call) = named(call) else {
        return lines.wrong("no such call");
    };
    let arguments = crate::calls::CALLS[call].arguments;
    let mut values = Vec::new();
    for argument in arguments {
        let line = lines.next().unwrap_or_default();
        let value = line.strip_prefix(argument.name());
        let Some(value) = value.and_then(|value| value.strip_prefix(' ')) else {
            return lines.wrong(&format!("{} is wanted here", argument.name()));
        };
        values.push(value_in(lines, argument, value)?);
    }
    let case = Case { call, values };
    let answer = lines.next().unwrap_or_default().strip_prefix("answer ");
    let Some(answer) = answer.and_then(|answer| answer.parse().ok()) else {
        return lines.wrong("the answer is wanted here");
    };
    let mut left = vec![None; arguments.len()];
    loop {
        let line = lines.next().unwrap_or_default();
        if line == "end" {
            let wanted = Outcome { answer, left };
            return Ok(Fixed {
                name,
                sentences,
                case,
                wanted,
            });
        }
        let words = line.strip_prefix("left ").and_then(|l| l.split_once(' '));
        let Some((argument, value)) = words else {
            return lines.wrong("`left` or `end` is wanted here");
        };
        let Some(at) = case.call().argument(argument) else {
            return lines.wrong("no such argument");
        };
        let value = bytes_of(&value_in(lines, &arguments[at], value)?);
        left[at] = (value != bytes_of(&case.values[at])).then_some(value);
    }
}

/// The cases of a file.
pub fn read(text: &str) -> Result<Vec<Fixed>, String> {
    let mut lines = Lines {
        lines: text.lines().collect(),
        at: 0,
    };
    let mut cases = Vec::new();
    while let Some(line) = lines.next() {
        let Some(name) = line.strip_prefix("case ") else {
            return lines.wrong("`case` is wanted here");
        };
        let mut sentences = Vec::new();
        let call = loop {
            let line = lines.next().unwrap_or_default();
            if let Some(words) = line.strip_prefix("sentence ") {
                sentences.push(words.to_string());
            } else if let Some(call) = line.strip_prefix("call ") {
                break call;
            } else if !line.starts_with("note ") {
                return lines.wrong("`call` is wanted here");
            }
        };
        cases.push(body(&mut lines, name.to_string(), sentences, call)?);
    }
    Ok(cases)
}
