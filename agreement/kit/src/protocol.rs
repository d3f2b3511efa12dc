//! The line protocol of engines that are programs: `agreement/README.md` describes it.

use crate::calls::{named, Argument, CALLS};
use crate::case::{number_bytes, numbers_of, Answered, Case, Outcome, Value};

/// What a program is asked first.
pub const ASK_CALLS: &str = "calls\n";

/// The calls that a program names in its first line.
pub fn calls_in(line: &str) -> Option<Vec<usize>> {
    let names = line.trim_end().strip_prefix("calls")?;
    Some(names.split_whitespace().filter_map(named).collect())
}

const DIGITS: &[u8; 16] = b"0123456789abcdef";

pub fn hexadecimal(bytes: &[u8]) -> String {
    let mut text = String::with_capacity(2 * bytes.len());
    for byte in bytes {
        text.push(DIGITS[usize::from(byte >> 4)].into());
        text.push(DIGITS[usize::from(byte & 15)].into());
    }
    text
}

pub fn bytes_in(text: &str) -> Option<Vec<u8>> {
    let half = |digit: u8| char::from(digit).to_digit(16).map(|value| value as u8);
    let pair = |pair: &[u8]| match pair {
        [high, low] => Some(half(*high)? << 4 | half(*low)?),
        _ => None,
    };
    text.as_bytes().chunks(2).map(pair).collect()
}

fn joined(numbers: &[u64]) -> String {
    let numbers: Vec<String> = numbers.iter().map(u64::to_string).collect();
    numbers.join(" ")
}

fn line(argument: &Argument, value: &Value) -> String {
    let text = match value {
        Value::Bytes(bytes) if argument.width() == 1 => hexadecimal(bytes),
        Value::Bytes(bytes) => joined(&numbers_of(bytes, argument.width())),
        Value::Count(count) => count.to_string(),
        Value::Result(numbers) => joined(numbers),
    };
    format!("{} {text}\n", argument.name())
}

/// A call as lines: its name, its arguments in order, `go`.
pub fn of_case(case: &Case) -> String {
    let mut text = format!("call {}\n", case.call().name);
    for (argument, value) in case.call().arguments.iter().zip(&case.values) {
        text += &line(argument, value);
    }
    text + "go\n"
}

/// What a program answers, up to its line `done`. Err says what is wrong with the lines.
pub fn answered_in(lines: &[String], case: &Case) -> Result<Answered, String> {
    let mut answer = None;
    let mut left = vec![None; case.values.len()];
    for line in lines {
        let (name, value) = line.split_once(' ').unwrap_or((line, ""));
        if name == "answer" {
            answer = Some(value.parse().map_err(|_| format!("'{line}'"))?);
            continue;
        }
        let argument = case.call().argument(name);
        let argument = argument.filter(|&at| case.call().arguments[at].is_written());
        let at = argument.ok_or_else(|| format!("'{}'", shortened(line)))?;
        let bytes = bytes_of_line(&case.call().arguments[at], value);
        let bytes = bytes.ok_or_else(|| format!("'{}'", shortened(line)))?;
        let before = crate::case::bytes_of(&case.values[at]);
        if bytes.len() != before.len() {
            return Ok(Answered::Failed(format!("it gave {name} another length")));
        }
        left[at] = (bytes != before).then_some(bytes);
    }
    let answer = answer.ok_or("no answer")?;
    Ok(Answered::Outcome(Outcome { answer, left }))
}

fn bytes_of_line(argument: &Argument, value: &str) -> Option<Vec<u8>> {
    if matches!(argument, Argument::Buffer { width: 1, .. }) {
        return bytes_in(value);
    }
    let numbers = value.split_whitespace().map(|text| text.parse::<u64>());
    let numbers: Vec<u64> = numbers.collect::<Result<_, _>>().ok()?;
    let bytes = number_bytes(&numbers, argument.width());
    (numbers_of(&bytes, argument.width()) == numbers).then_some(bytes)
}

pub fn shortened(line: &str) -> String {
    match line.char_indices().nth(60) {
        Some((end, _)) => format!("{}..", &line[..end]),
        None => line.to_string(),
    }
}

/// The names of calls by their places.
pub fn names(calls: &[usize]) -> Vec<&'static str> {
    calls.iter().map(|&call| CALLS[call].name).collect()
}
