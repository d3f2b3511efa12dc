//! A report as a page in one file, to be read and printed: no scripts, and nothing from outside.

use std::borrow::Cow;
use std::io::{self, Write};

use fantanolive::VERSION;

use crate::failure::{grouped, Status};
use crate::mask::masked;
use crate::report::sheet::{Sheet, Small};
use crate::report::summary::Summary;

const STYLE: &str = include_str!("page.css");

/// What a page has beside its summary.
pub struct Page<'a> {
    /// What was read, and when.
    pub about: String,
    /// A name, a number and what goes with it, for a chart of bars; none where there is nothing to show.
    pub chart: (&'static str, Vec<(String, u64, String)>),
    pub notes: Vec<String>,
    pub list: &'a dyn Sheet,
    /// Whether SSNs are written whole.
    pub full: bool,
}

/// A text as it stands in a page.
fn escaped(text: &str) -> Cow<'_, str> {
    if !text.contains(['&', '<', '>', '"', '\'']) && !text.contains(char::is_control) {
        return Cow::Borrowed(text);
    }
    let mut out = String::with_capacity(text.len() + 16);
    for c in text.chars() {
        match c {
            '&' => out.push_str("&amp;"),
            '<' => out.push_str("&lt;"),
            '>' => out.push_str("&gt;"),
            '"' => out.push_str("&quot;"),
            '\'' => out.push_str("&#39;"),
            c if c.is_control() => out.push('.'),
            c => out.push(c),
        }
    }
    Cow::Owned(out)
}

/// What a command between backticks begins with.
const COMMAND: &str = "`fantanolive ";

/// A text of a page with the commands in it set as such, without their backticks.
fn with_commands(text: Cow<'_, str>) -> Cow<'_, str> {
    let mut out = String::new();
    let mut rest = &*text;
    while let Some((before, command)) = rest.find(COMMAND).map(|at| rest.split_at(at)) {
        let Some((command, behind)) = command[1..].split_once('`') else {
            break;
        };
        out.extend([before, "<code>", command, "</code>"]);
        rest = behind;
    }
    match out.is_empty() {
        true => text,
        false => Cow::Owned(out + rest),
    }
}

impl Page<'_> {
    /// Words of the program's own, in which commands may stand.
    fn words<'t>(&self, text: &'t str) -> Cow<'t, str> {
        with_commands(self.text(text))
    }

    /// A text of the page, without SSNs unless they are asked for.
    fn text<'t>(&self, text: &'t str) -> Cow<'t, str> {
        match self.full {
            true => escaped(text),
            false => Cow::Owned(escaped(&masked(text)).into_owned()),
        }
    }

    pub fn put(&self, summary: &Summary, out: &mut dyn Write) -> io::Result<()> {
        self.put_front(summary, out)?;
        self.put_counts(summary, out)?;
        self.put_chart(out)?;
        for small in self.list.before() {
            self.put_small(&small, out)?;
        }
        self.put_list(out)?;
        for note in &self.notes {
            writeln!(out, "<p>{}</p>", self.words(note))?;
        }
        writeln!(out, "</body>\n</html>")
    }

    fn put_front(&self, summary: &Summary, out: &mut dyn Write) -> io::Result<()> {
        let title = format!("{}: {}", summary.command(), summary.words());
        let title = self.text(&title);
        let class = match summary.status() {
            Status::Done => "good",
            _ => "bad",
        };
        write!(
            out,
            "<!doctype html>\n<html lang=\"en\">\n<head>\n<meta charset=\"utf-8\">\n\
             <meta name=\"viewport\" content=\"width=device-width, initial-scale=1\">\n\
             <meta http-equiv=\"Content-Security-Policy\" content=\"default-src 'none'; style-src 'unsafe-inline'\">\n\
             <title>{title}</title>\n<style>\n{STYLE}</style>\n</head>\n<body>\n\
             <h1 class=\"{class}\">{title}</h1>\n<p>{}; fantanolive {VERSION}</p>\n",
            self.text(&self.about),
        )
    }

    fn put_counts(&self, summary: &Summary, out: &mut dyn Write) -> io::Result<()> {
        writeln!(out, "<h2>Summary</h2>\n<table class=\"counts\">")?;
        for (name, value) in summary.lines() {
            let (name, value) = (self.text(&name), self.text(&value));
            writeln!(out, "<tr><th>{name}</th><td>{value}</td></tr>")?;
        }
        writeln!(out, "</table>")
    }

    /// Bars as wide as their part of the largest.
    fn put_chart(&self, out: &mut dyn Write) -> io::Result<()> {
        let (caption, bars) = &self.chart;
        let Some(most) = bars.iter().map(|(_, number, _)| *number).max() else {
            return Ok(());
        };
        writeln!(out, "<h2>{caption}</h2>\n<table class=\"chart\">")?;
        for (name, number, words) in bars {
            let width = number * 100 / most.max(1);
            writeln!(
                out,
                "<tr><td>{}</td><td class=\"number\">{}</td><td><div class=\"track\"><div class=\"bar\" style=\"width:{width}%\"></div></div></td><td>{}</td></tr>",
                self.text(name),
                grouped(*number),
                self.words(words),
            )?;
        }
        writeln!(out, "</table>")
    }

    /// The caption of a table, the names of its columns, and the start of its body.
    fn put_heads(&self, caption: &str, heads: &[&str], out: &mut dyn Write) -> io::Result<()> {
        let caption = self.text(caption);
        writeln!(
            out,
            "<h2>{caption}</h2>\n<table class=\"list\">\n<thead><tr>"
        )?;
        for head in heads {
            write!(out, "<th>{}</th>", escaped(head))?;
        }
        writeln!(out, "</tr></thead>\n<tbody>")
    }

    /// A table that stands before the list.
    fn put_small(&self, small: &Small, out: &mut dyn Write) -> io::Result<()> {
        self.put_heads(&small.caption, small.heads, out)?;
        (small.put_lines)(&mut |cells| self.put_line(small.heads, cells, out))?;
        writeln!(out, "</tbody>\n</table>")
    }

    fn put_list(&self, out: &mut dyn Write) -> io::Result<()> {
        let heads = self.list.heads();
        self.put_heads(&self.list.caption(), heads, out)?;
        let mut record: Option<String> = None;
        self.list.put_lines(&mut |cells| {
            // the lines of a record, which begin alike, stay on one printed page
            let is_same = record.as_deref() == cells.first().copied();
            if record.is_some() && !is_same {
                writeln!(out, "</tbody>\n<tbody>")?;
            }
            if !is_same {
                record = cells.first().map(|first| first.to_string());
            }
            self.put_line(heads, cells, out)
        })?;
        writeln!(out, "</tbody>\n</table>")
    }

    fn put_line(&self, heads: &[&str], cells: &[&str], out: &mut dyn Write) -> io::Result<()> {
        write!(out, "<tr>")?;
        for (head, cell) in heads.iter().zip(cells) {
            let (head, cell) = (escaped(head), self.words(cell));
            write!(out, "<td data-name=\"{head}\">{cell}</td>")?;
        }
        writeln!(out, "</tr>")
    }
}

#[cfg(test)]
mod tests {
    use super::*;

    #[test]
    fn commands_are_set_as_such() {
        let set = |text: &'static str| with_commands(escaped(text));
        assert_eq!(set("a `b` c"), "a `b` c");
        assert_eq!(set("`fantanolive log`"), "<code>fantanolive log</code>");
        assert_eq!(
            set("run `fantanolive find <KEY>` or `fantanolive show`; `x"),
            "run <code>fantanolive find &lt;KEY&gt;</code> or <code>fantanolive show</code>; `x"
        );
        assert_eq!(set("`fantanolive log"), "`fantanolive log");
    }

    #[test]
    fn nothing_in_a_text_is_taken_for_the_page() {
        assert_eq!(escaped("plain"), "plain");
        assert_eq!(
            escaped("<b a=\"x\">&'\u{7}"),
            "&lt;b a=&quot;x&quot;&gt;&amp;&#39;."
        );
    }
}
