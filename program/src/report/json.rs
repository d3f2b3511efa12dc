//! JSON, written as it comes.

use std::io::{self, Write};
use std::mem;

use crate::mask::{masked, may_have_ssn};
use crate::number::put_number;

/// Whether a byte of a text is written otherwise.
fn is_escaped(byte: u8) -> bool {
    matches!(byte, b'"' | b'\\' | ..b' ')
}

/// Eight equal bytes.
const fn eight(byte: u8) -> u64 {
    u64::from_ne_bytes([byte; 8])
}

/// Not zero where one of eight bytes is written otherwise. A byte below 128 is below a limit where it is less by it and its
/// highest bit is set then; one is another where what differs between them is below 1.
fn escaped_in(bytes: [u8; 8]) -> u64 {
    let bytes = u64::from_ne_bytes(bytes);
    let control = bytes.wrapping_sub(eight(b' '));
    let quotation = (bytes ^ eight(b'"')).wrapping_sub(eight(1));
    let backslash = (bytes ^ eight(b'\\')).wrapping_sub(eight(1));
    (control | quotation | backslash) & !bytes & eight(0x80)
}

/// Whether a text has a byte that is written otherwise: eight bytes at a time, and then the last eight.
fn has_escaped(text: &str) -> bool {
    let bytes = text.as_bytes();
    let Some(last) = bytes.last_chunk() else {
        return bytes.iter().any(|&byte| is_escaped(byte));
    };
    let (eights, _) = bytes.as_chunks();
    let found = eights
        .iter()
        .fold(0, |found, eight| found | escaped_in(*eight));
    found | escaped_in(*last) != 0
}

/// Bytes that are written at once.
const PART: usize = 1 << 16;

/// The name of a member, made once for many objects: `,"name":`.
pub struct Name(String);

impl Name {
    pub fn new(name: &'static str) -> Name {
        debug_assert!(!has_escaped(name), "{name}");
        Name(format!(",\"{name}\":"))
    }
}

/// The front of an object whose last member is a text, made once for many objects: `{"a":1,"b":`.
pub struct Front(String);

/// A writer of one JSON value. Commas are set by it; that names and values alternate in an object is the caller's part.
pub struct Json<W: Write> {
    out: W,
    /// What is still to be written.
    made: String,
    /// Whether something stands before, for each array or object that is open.
    open: Vec<bool>,
    /// Whether a name was just written, whose value comes next.
    named: bool,
    /// Whether SSNs in texts are written whole.
    full: bool,
}

impl<W: Write> Json<W> {
    pub fn new(out: W) -> Json<W> {
        Json {
            out,
            made: String::new(),
            open: Vec::new(),
            named: false,
            full: false,
        }
    }

    /// The same with SSNs whole, where they are asked for.
    pub fn full(mut self, full: bool) -> Json<W> {
        self.full = full;
        self
    }

    fn write(&mut self) -> io::Result<()> {
        let done = self.out.write_all(self.made.as_bytes());
        self.made.clear();
        done
    }

    /// The comma before a value or name.
    fn separate(&mut self) -> io::Result<()> {
        if mem::take(&mut self.named) {
            return Ok(());
        }
        self.separate_names();
        match self.made.len() < PART {
            true => Ok(()),
            false => self.write(),
        }
    }

    fn separate_names(&mut self) {
        let before = self.open.last_mut();
        if before.is_some_and(|before| mem::replace(before, true)) {
            self.made.push(',');
        }
    }

    fn begin(&mut self, bracket: char) -> io::Result<()> {
        self.separate()?;
        self.open.push(false);
        self.made.push(bracket);
        Ok(())
    }

    fn end(&mut self, bracket: char) -> io::Result<()> {
        self.open.pop();
        self.made.push(bracket);
        Ok(())
    }

    pub fn begin_object(&mut self) -> io::Result<()> {
        self.begin('{')
    }

    pub fn end_object(&mut self) -> io::Result<()> {
        self.end('}')
    }

    pub fn begin_array(&mut self) -> io::Result<()> {
        self.begin('[')
    }

    pub fn end_array(&mut self) -> io::Result<()> {
        self.end(']')
    }

    /// A name of the program's own, in which nothing is written otherwise.
    pub fn name(&mut self, name: &'static str) -> io::Result<()> {
        debug_assert!(!has_escaped(name), "{name}");
        self.separate_names();
        self.made.push('"');
        self.made.push_str(name);
        self.end_name()
    }

    /// A name that was made or read.
    pub fn any_name(&mut self, name: &str) -> io::Result<()> {
        self.separate_names();
        self.made.push('"');
        match has_escaped(name) {
            true => self.escaped(name),
            false => self.made.push_str(name),
        }
        self.end_name()
    }

    fn end_name(&mut self) -> io::Result<()> {
        self.named = true;
        self.made.push_str("\":");
        Ok(())
    }

    /// A name that was made before.
    pub fn made_name(&mut self, name: &Name) {
        let before = self.open.last_mut();
        let comma = before.is_some_and(|before| mem::replace(before, true));
        self.made.push_str(&name.0[usize::from(!comma)..]);
        self.named = true;
    }

    pub fn text(&mut self, text: &str) -> io::Result<()> {
        self.text_by(|out| out.push_str(text))
    }

    /// A text that is put behind what stands there.
    pub fn text_by(&mut self, put: impl FnOnce(&mut String)) -> io::Result<()> {
        self.separate()?;
        self.made.push('"');
        let start = self.made.len();
        put(&mut self.made);
        self.mend(start);
        self.made.push('"');
        Ok(())
    }

    pub fn number(&mut self, number: u64) -> io::Result<()> {
        self.separate()?;
        put_number(number, &mut self.made);
        Ok(())
    }

    /// An amount in cents, as dollars with two decimal places.
    pub fn cents(&mut self, cents: u64) -> io::Result<()> {
        self.separate()?;
        self.made += &format!("{}.{:02}", cents / 100, cents % 100);
        Ok(())
    }

    /// A count or an amount as a number where it is digits, with two decimal places or none; else a text.
    pub fn number_or_text(&mut self, value: &str) -> io::Result<()> {
        let (whole, cents) = match value.split_once('.') {
            Some((whole, cents)) => (whole, Some(cents)),
            None => (value, None),
        };
        let is_digits = |text: &str| !text.is_empty() && text.bytes().all(|b| b.is_ascii_digit());
        let is_number =
            is_digits(whole) && cents.is_none_or(|cents| cents.len() == 2 && is_digits(cents));
        if !is_number || whole.len() > 18 {
            return self.text(value);
        }
        self.separate()?;
        let front = whole.trim_start_matches('0');
        let front = if front.is_empty() { "0" } else { front };
        self.made.push_str(front);
        if cents.is_some() {
            self.made.push_str(&value[whole.len()..]);
        }
        Ok(())
    }

    pub fn null(&mut self) -> io::Result<()> {
        self.separate()?;
        self.made.push_str("null");
        Ok(())
    }

    /// A name with a text.
    pub fn text_of(&mut self, name: &'static str, text: &str) -> io::Result<()> {
        self.name(name)?;
        self.text(text)
    }

    /// A name with a text, or with null.
    pub fn maybe_text_of(&mut self, name: &'static str, text: Option<&str>) -> io::Result<()> {
        self.name(name)?;
        match text {
            Some(text) => self.text(text),
            None => self.null(),
        }
    }

    /// A name with a number.
    pub fn number_of(&mut self, name: &'static str, number: u64) -> io::Result<()> {
        self.name(name)?;
        self.number(number)
    }

    /// The front of an object, by what writes its members but the last, and the last one's name.
    pub fn front(
        &self,
        members: impl FnOnce(&mut Json<io::Sink>) -> io::Result<()>,
        last: &'static str,
    ) -> io::Result<Front> {
        let mut json = Json::new(io::sink()).full(self.full);
        json.begin_object()?;
        members(&mut json)?;
        json.name(last)?;
        Ok(Front(mem::take(&mut json.made)))
    }

    /// An object with a front, and its last text.
    pub fn object_by(&mut self, front: &Front, last: impl FnOnce(&mut String)) -> io::Result<()> {
        self.separate()?;
        self.made.push_str(&front.0);
        self.named = true;
        self.text_by(last)?;
        self.made.push('}');
        Ok(())
    }

    /// The end of the whole: a line feed.
    pub fn finish(&mut self) -> io::Result<()> {
        self.made.push('\n');
        self.write()
    }

    /// Writes a text otherwise where it is to be: without SSNs unless they are asked for, and escaped.
    fn mend(&mut self, start: usize) {
        let text = &self.made[start..];
        if !self.full && may_have_ssn(text) || has_escaped(text) {
            self.mend_slowly(start);
        }
    }

    #[cold]
    fn mend_slowly(&mut self, start: usize) {
        let text = self.made.split_off(start);
        match self.full {
            true => self.escaped(&text),
            false => self.escaped(&masked(&text)),
        }
    }

    fn escaped(&mut self, text: &str) {
        let mut rest = text;
        while let Some(at) = rest.bytes().position(is_escaped) {
            self.made.push_str(&rest[..at]);
            match rest.as_bytes()[at] {
                b'\n' => self.made.push_str("\\n"),
                byte @ (b'"' | b'\\') => self.made.extend(['\\', char::from(byte)]),
                byte => self.made += &format!("\\u{byte:04x}"),
            }
            rest = &rest[at + 1..];
        }
        self.made.push_str(rest);
    }
}

/// What was made before a failure is written as far as it goes.
impl<W: Write> Drop for Json<W> {
    fn drop(&mut self) {
        let _ = self.write();
    }
}

#[cfg(test)]
mod tests {
    use super::*;

    fn written(write: impl FnOnce(&mut Json<&mut Vec<u8>>) -> io::Result<()>) -> String {
        let mut out = Vec::new();
        write(&mut Json::new(&mut out)).expect("a list takes everything");
        String::from_utf8(out).expect("it is text")
    }

    #[test]
    fn commas_stand_between_values() {
        let text = written(|json| {
            json.begin_object()?;
            json.number_of("a", 1)?;
            json.name("b")?;
            json.begin_array()?;
            json.number(2)?;
            json.begin_object()?;
            json.end_object()?;
            json.null()?;
            json.end_array()?;
            json.text_of("c", "d")?;
            json.end_object()?;
            json.finish()
        });
        assert_eq!(text, "{\"a\":1,\"b\":[2,{},null],\"c\":\"d\"}\n");
    }

    #[test]
    fn names_and_fronts_made_once() {
        let text = written(|json| {
            let (one, other) = (Name::new("a"), Name::new("b"));
            let front = json.front(|json| json.number_of("c", 1), "d")?;
            json.begin_object()?;
            json.made_name(&one);
            json.text_by(|out| out.push('e'))?;
            json.made_name(&other);
            json.begin_array()?;
            json.object_by(&front, |_| {})?;
            json.object_by(&front, |out| out.push_str("123456789\""))?;
            json.null()?;
            json.end_array()?;
            json.text_of("f", "")?;
            json.end_object()
        });
        let list = r#"[{"c":1,"d":""},{"c":1,"d":"*****6789\""},null]"#;
        assert_eq!(text, format!(r#"{{"a":"e","b":{list},"f":""}}"#));
    }

    #[test]
    fn what_is_long_is_written_in_parts() {
        let text = "0123 ".repeat(PART / 50);
        let list = written(|json| {
            json.begin_array()?;
            (0..25).try_for_each(|_| json.text(&text))?;
            json.end_array()
        });
        assert_eq!(
            list,
            format!("[{}]", [&*format!("\"{text}\""); 25].join(","))
        );
    }

    #[test]
    fn numbers_where_they_are_digits() {
        for (value, wanted) in [
            ("000000012", "12"),
            ("000", "0"),
            ("1.05", "1.05"),
            ("0.00", "0.00"),
            ("", "\"\""),
            ("1 2", "\"1 2\""),
            ("1.5", "\"1.5\""),
            ("0000000010N", "\"0000000010N\""),
        ] {
            assert_eq!(written(|json| json.number_or_text(value)), wanted);
        }
    }

    #[test]
    fn strings_are_escaped() {
        let text = written(|json| json.text("a\"b\\xC0\nc\u{1}é"));
        assert_eq!(text, "\"a\\\"b\\\\xC0\\nc\\u0001é\"");
        for (byte, front) in (0..=255).flat_map(|byte| (0..20).map(move |front| (byte, front))) {
            let text = format!(
                "{}{}é {}",
                "~".repeat(front),
                char::from(byte),
                "!".repeat(9)
            );
            assert_eq!(has_escaped(&text), text.bytes().any(is_escaped), "{text}");
        }
    }
}
