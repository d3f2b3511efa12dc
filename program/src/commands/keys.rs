//! The keys of find and edit: one that is given, several, or the lines of a file.

use std::ffi::OsString;
use std::io::{self, BufRead, BufReader};
use std::os::unix::ffi::OsStrExt;
use std::path::Path;

use fantanolive::KEY;

use crate::arguments::Arguments;
use crate::code_page::argument;
use crate::failure::{counted, words, Failure, STANDARD};
use crate::files::read::open;
use crate::report::key_faults;

/// How much of a line is kept: more than a key has, so that the call refuses a longer one.
const LONGEST: usize = 64;

/// A key in EBCDIC, and its number among the arguments or lines, the first being 1.
pub struct Key {
    pub number: u64,
    text: Text,
}

/// What was typed for a key.
enum Text {
    Key([u8; KEY]),
    /// What is longer or shorter, in ASCII, and so no key.
    Other(Box<Vec<u8>>),
}

/// Where the parts of a key begin behind the first, those of its SSN too.
const PARTS: [usize; 4] = [2, 5, 7, 11];

/// A text in upper case without a hyphen or a space between two parts: `oh 100-10-1000 a`.
fn plain(text: &[u8]) -> Vec<u8> {
    let mut plain = Vec::with_capacity(KEY);
    let mut parted = 0;
    for &byte in text {
        let is_between = matches!(byte, b'-' | b' ') && PARTS.contains(&plain.len());
        match is_between && plain.len() > parted {
            true => parted = plain.len(),
            false => plain.push(byte.to_ascii_uppercase()),
        }
    }
    plain
}

impl Key {
    /// That of a text in ASCII; its letters may be lower case, and hyphens or spaces may stand between its parts.
    fn of(number: u64, text: &[u8]) -> Key {
        let key = argument(&plain(text)).try_into();
        let text = key.map_or_else(|_| Text::Other(Box::new(text.to_vec())), Text::Key);
        Key { number, text }
    }

    /// What is lent to the calls: nothing where it is longer or shorter, which they refuse as they refuse that.
    pub fn bytes(&self) -> &[u8] {
        match &self.text {
            Text::Key(bytes) => bytes,
            Text::Other(_) => &[],
        }
    }

    /// What is wrong with it; nothing where it is a key.
    pub fn faults(&self) -> Vec<String> {
        match &self.text {
            Text::Key(bytes) => key_faults::of_key(bytes),
            Text::Other(text) => vec![wrong_length(text)],
        }
    }
}

/// What is wrong with a text that is longer or shorter than a key, with the cause where it is known.
fn wrong_length(text: &[u8]) -> String {
    if text.starts_with(MARK) {
        return "a byte order mark stands before it: save the file as plain ASCII".to_string();
    }
    let is_space = |byte: Option<&u8>| matches!(byte, Some(b' ' | b'\t'));
    match (is_space(text.first()), is_space(text.last())) {
        (true, _) => "it begins with a space, which is to go".to_string(),
        (_, true) => "it ends with a space, which is to go".to_string(),
        _ if text.len() >= LONGEST => format!("it has {LONGEST} characters or more, and not {KEY}"),
        _ => format!(
            "it has {}, and not {KEY}",
            counted(text.len() as u64, "character")
        ),
    }
}

/// The byte order mark of UTF-8.
const MARK: &[u8] = b"\xEF\xBB\xBF";

/// The keys, and what their numbers count; none where it is one key alone.
pub struct Keys {
    pub counted: Option<&'static str>,
    pub list: Vec<Key>,
}

/// Reads a line without its end, or the front of a longer one; none at the end.
fn next_line(input: &mut impl BufRead) -> io::Result<Option<Vec<u8>>> {
    let mut line = Vec::new();
    let mut is_end = true;
    loop {
        let part = input.fill_buf()?;
        if part.is_empty() {
            return Ok((!is_end).then_some(line));
        }
        is_end = false;
        let end = part.iter().position(|&byte| byte == b'\n');
        let length = end.unwrap_or(part.len());
        let room = LONGEST - line.len().min(LONGEST);
        line.extend_from_slice(&part[..length.min(room)]);
        input.consume(end.map_or(length, |end| end + 1));
        if end.is_some() {
            if line.last() == Some(&b'\r') {
                line.pop();
            }
            return Ok(Some(line));
        }
    }
}

/// The keys in the lines of a file; blank lines are none.
fn keys_in(path: &Path) -> Result<Keys, Failure> {
    let failed =
        |error: io::Error| Failure::file(path, format!("can't be read: {}", words(&error)));
    let mut input = BufReader::new(open(path).map_err(failed)?);
    let mut list = Vec::new();
    let mut number = 0;
    while let Some(line) = next_line(&mut input).map_err(failed)? {
        number += 1;
        if !line.is_empty() {
            list.push(Key::of(number, &line));
        }
    }
    if list.is_empty() {
        return Err(Failure::file(path, "has no key"));
    }
    Ok(Keys {
        counted: Some("line"),
        list,
    })
}

/// The keys that are given one by one.
fn keys_given(given: &[OsString]) -> Keys {
    let key = |(number, key): (u64, &OsString)| Key::of(number, key.as_bytes());
    Keys {
        counted: (given.len() > 1).then_some("argument"),
        list: (1..).zip(given).map(key).collect(),
    }
}

/// The key of a command that takes one, or the lines of standard input.
pub fn one_or_lines(arguments: &Arguments) -> Result<Vec<Key>, Failure> {
    let keys = match arguments.operands_from(1) {
        [only] if only == STANDARD => keys_in(Path::new(STANDARD))?,
        given => keys_given(given),
    };
    Ok(keys.list)
}

/// The keys of a command line.
pub fn keys_of(arguments: &Arguments) -> Result<Keys, Failure> {
    let given = arguments.operands_from(1);
    match (given, arguments.value("--keys")) {
        ([], None) => Err(arguments.wrong("KEY is missing, or --keys FILE")),
        ([], Some(file)) => keys_in(Path::new(file)),
        (_, Some(_)) => Err(arguments.wrong("keys are given, and --keys FILE too: give one alone")),
        ([only], None) if only == STANDARD => keys_in(Path::new(STANDARD)),
        (several, None) if several.iter().any(|key| key == STANDARD) => {
            Err(arguments.wrong("- is standard input, and can't stand among other keys"))
        }
        (given, None) => Ok(keys_given(given)),
    }
}

#[cfg(test)]
mod tests {
    use super::*;

    fn lines(mut text: &[u8]) -> Vec<Vec<u8>> {
        let next = || next_line(&mut text).expect("a text is read");
        std::iter::from_fn(next).collect()
    }

    #[test]
    fn keys_with_and_without_what_parts_them() {
        let wanted = argument(b"OH100101000A");
        for text in [
            "OH100101000A",
            "oh100-10-1000a",
            "oh-100-10-1000-a",
            "oh 100 10 1000 a",
            "oh 100101000-a",
        ] {
            assert_eq!(Key::of(1, text.as_bytes()).bytes(), wanted, "{text}");
        }
        for (text, fault) in [
            ("OH10010100A", "it has 11 characters, and not 12"),
            ("OH1-00101000A", "it has 13 characters, and not 12"),
            ("OH--100101000A", "it has 14 characters, and not 12"),
            (" OH100101000A", "it begins with a space, which is to go"),
            ("OH100101000A ", "it ends with a space, which is to go"),
            (
                "\u{feff}OH100101000A",
                "a byte order mark stands before it: save the file as plain ASCII",
            ),
        ] {
            let key = Key::of(1, text.as_bytes());
            assert_eq!(
                (key.bytes(), key.faults()),
                (&[][..], vec![fault.to_string()])
            );
        }
        let long = Key::of(1, &[b'1'; LONGEST]);
        assert_eq!(long.faults(), ["it has 64 characters or more, and not 12"]);
    }

    #[test]
    fn lines_are_read_one_by_one() {
        assert_eq!(lines(b""), Vec::<Vec<u8>>::new());
        assert_eq!(lines(b"a\r\n\nb"), [&b"a"[..], b"", b"b"]);
        let long = lines(&[&[b'1'; 5000][..], b"\nx\n"].concat());
        assert_eq!(long, [&[b'1'; LONGEST][..], b"x"]);
    }
}
