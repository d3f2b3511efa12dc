//! Lines of text on standard output: cut at the width of a terminal, with colours there.

use std::borrow::Cow;
use std::io::{self, BufWriter, Write};
use std::{iter, mem};

use crate::mask::masked;
use crate::report::wrap::front;
use crate::terminal;

#[derive(Clone, Copy, Debug, PartialEq, Eq)]
pub enum Style {
    Plain,
    Heading,
    Error,
    Warning,
}

impl Style {
    /// What begins the style on a terminal.
    fn start(self) -> &'static str {
        match self {
            Style::Plain => "",
            Style::Heading => "\x1b[1m",
            Style::Error => "\x1b[31m",
            Style::Warning => "\x1b[33m",
        }
    }
}

const PLAIN_AGAIN: &str = "\x1b[0m";

/// How wide texts are where there is no terminal.
const USUAL: usize = 100;

/// Behind a line that is cut.
const CUT: char = '>';

pub struct Screen<W: Write> {
    out: W,
    /// The width of the terminal; none where there is none.
    width: Option<usize>,
    colours: bool,
    /// Whether SSNs are printed whole.
    full: bool,
    /// A line below the first of a text that is broken.
    below: String,
}

/// Where a report goes, with a large buffer.
pub type Output = BufWriter<Box<dyn Write>>;

/// The stream of reports: standard output, or standard error where a file goes to standard output.
pub fn report_output(to_error: bool) -> Output {
    let stream: Box<dyn Write> = if to_error {
        Box::new(io::stderr().lock())
    } else {
        Box::new(io::stdout().lock())
    };
    BufWriter::with_capacity(1 << 16, stream)
}

impl Screen<Output> {
    pub fn of_report(to_error: bool) -> Self {
        let width = match to_error {
            true => terminal::error_width(),
            false => terminal::output_width(),
        };
        let colours = width.is_some() && terminal::takes_colours();
        Screen::new(report_output(to_error), width, colours)
    }
}

impl<W: Write> Screen<W> {
    pub fn new(out: W, width: Option<usize>, colours: bool) -> Screen<W> {
        Screen {
            out,
            width,
            colours,
            full: false,
            below: String::new(),
        }
    }

    /// The same with SSNs whole, where they are asked for.
    pub fn full(mut self, full: bool) -> Screen<W> {
        self.full = full;
        self
    }

    /// A line, cut where the terminal is narrower.
    pub fn line(&mut self, style: Style, text: &str) -> io::Result<()> {
        let plain = printable(text);
        let without_ssns = match self.full {
            true => Cow::Borrowed(&*plain),
            false => masked(&plain),
        };
        let text: &str = &without_ssns;
        let coloured = self.colours && style != Style::Plain;
        if coloured {
            self.out.write_all(style.start().as_bytes())?;
        }
        match self.width.and_then(|width| cut(text, width)) {
            Some(front) => write!(self.out, "{front}{CUT}")?,
            None => self.out.write_all(text.as_bytes())?,
        }
        if coloured {
            self.out.write_all(PLAIN_AGAIN.as_bytes())?;
        }
        self.out.write_all(b"\n")
    }

    pub fn plain(&mut self, text: &str) -> io::Result<()> {
        self.line(Style::Plain, text)
    }

    /// A text behind a start, broken into lines; those behind the first are indented.
    pub fn wrapped(
        &mut self,
        style: Style,
        start: &str,
        text: &str,
        indent: usize,
    ) -> io::Result<()> {
        self.broken(style, &[start, text].concat(), start.len(), indent)
    }

    /// The same of a text that has the start, so many bytes, in itself.
    pub fn broken(
        &mut self,
        style: Style,
        text: &str,
        start: usize,
        indent: usize,
    ) -> io::Result<()> {
        let width = self.width.unwrap_or(USUAL).min(USUAL);
        let room = width.saturating_sub(text[..start].chars().count());
        let (words, mut rest) = front(&text[start..], room);
        self.line(style, &text[..start + words.len()])?;
        let mut line = mem::take(&mut self.below);
        while let Some(text) = rest {
            let (words, behind) = front(text, width.saturating_sub(indent));
            line.clear();
            line.extend(iter::repeat_n(' ', indent));
            line.push_str(words);
            self.line(style, &line)?;
            rest = behind;
        }
        self.below = line;
        Ok(())
    }

    pub fn flush(&mut self) -> io::Result<()> {
        self.out.flush()
    }
}

/// A text in one line, without control characters, which the name of a file may have: full stops stand in their places.
pub fn printable(text: &str) -> Cow<'_, str> {
    // all bytes are looked at, several at a time
    let is_plain = text
        .bytes()
        .fold(true, |plain, byte| plain & matches!(byte, b' '..=b'~'));
    if !is_plain && text.contains(char::is_control) {
        Cow::Owned(text.replace(char::is_control, "."))
    } else {
        Cow::Borrowed(text)
    }
}

/// The front of a text that is longer than a line, with a place left for the mark.
fn cut(text: &str, width: usize) -> Option<&str> {
    text.char_indices().nth(width)?;
    let (at, _) = text.char_indices().nth(width.saturating_sub(1))?;
    Some(&text[..at])
}

#[cfg(test)]
mod tests {
    use super::*;

    fn printed(width: Option<usize>, colours: bool, style: Style, text: &str) -> String {
        let mut out = Vec::new();
        let mut screen = Screen::new(&mut out, width, colours);
        screen.line(style, text).expect("a list takes everything");
        String::from_utf8(out).expect("it is text")
    }

    #[test]
    fn lines_are_cut_on_a_terminal_alone() {
        assert_eq!(printed(None, false, Style::Plain, "abcdef"), "abcdef\n");
        assert_eq!(printed(Some(6), false, Style::Plain, "abcdef"), "abcdef\n");
        assert_eq!(printed(Some(5), false, Style::Plain, "abcdef"), "abcd>\n");
        assert_eq!(printed(Some(3), false, Style::Plain, "äöüß"), "äö>\n");
    }

    #[test]
    fn control_characters_are_not_printed() {
        let text = printed(None, false, Style::Plain, "a\nb\x1b[31mc\u{9b}d é");
        assert_eq!(text, "a.b.[31mc.d é\n");
    }

    #[test]
    fn colours_are_behind_no_cut() {
        let text = printed(Some(4), true, Style::Error, "abcdef");
        assert_eq!(text, "\x1b[31mabc>\x1b[0m\n");
        assert_eq!(printed(None, false, Style::Error, "a"), "a\n");
    }
}
