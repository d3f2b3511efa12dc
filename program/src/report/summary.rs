//! The front of every report: what was carried out, and its numbers.

use std::borrow::Cow;
use std::io::{self, Write};

use fantanolive::VERSION;

use crate::failure::{grouped, Status};
use crate::files::outputs::names;
use crate::files::replace::Placed;
use crate::records::amounts::money;
use crate::report::json::Json;
use crate::report::screen::{Screen, Style};

/// The outcome of a command that is neither refused nor failed.
pub const CARRIED_OUT: &str = "carried out";

enum Value {
    Number(u64),
    /// A number that counts from 1.
    Place(u64),
    Text(String),
    /// Cents.
    Money(u64),
    /// Cents that are the sum of others, with its own name and theirs in JSON.
    MoneySum {
        total: (&'static str, u64),
        parts: Vec<(&'static str, u64)>,
    },
    /// A number that is the sum of others, with its own name and theirs in JSON.
    Sum {
        total: (&'static str, u64),
        parts: Vec<(&'static str, u64)>,
    },
}

struct Item {
    name: &'static str,
    value: Value,
    /// 0, or 1 where it is a part of a number above, or 2 where it is a part of such a part.
    level: usize,
}

/// What a command did, as names with their values.
pub struct Summary {
    command: &'static str,
    status: Status,
    /// What stands behind the command's name in the text, and the outcome in JSON.
    heading: Cow<'static, str>,
    outcome: &'static str,
    /// What a person wants to know first, and what is added to it in the text.
    verdict: Option<String>,
    items: Vec<Item>,
    written: Vec<String>,
    warning: Option<String>,
}

impl Summary {
    pub fn new(command: &'static str, status: Status) -> Summary {
        Summary {
            command,
            status,
            heading: Cow::Borrowed(CARRIED_OUT),
            outcome: CARRIED_OUT,
            verdict: None,
            items: Vec::new(),
            written: Vec::new(),
            warning: None,
        }
    }

    pub fn heading(mut self, words: &'static str) -> Summary {
        self.heading = Cow::Borrowed(words);
        self
    }

    /// What a person wants to know first: the heading, and a member in JSON.
    pub fn verdict(mut self, words: impl Into<String>) -> Summary {
        let words = words.into();
        self.heading = Cow::Owned(words.clone());
        self.verdict = Some(words);
        self
    }

    /// Of a run that writes nothing: what it would do.
    pub fn would_be(mut self) -> Summary {
        if self.verdict.is_none() {
            self.heading = Cow::Borrowed("would be carried out; nothing is written");
        }
        self.outcome = "would be carried out";
        self
    }

    /// Of a run that writes nothing, where one that writes would be stopped.
    pub fn stopped(mut self) -> Summary {
        self.status = Status::Problem;
        self.outcome = "would be stopped";
        self
    }

    fn item(mut self, name: &'static str, value: Value, level: usize) -> Summary {
        self.items.push(Item { name, value, level });
        self
    }

    pub fn number(self, name: &'static str, number: u64) -> Summary {
        self.item(name, Value::Number(number), 0)
    }

    /// A number that is a part of the one above.
    pub fn of_which(self, name: &'static str, number: u64) -> Summary {
        self.item(name, Value::Number(number), 1)
    }

    /// A number that is a part of a part.
    pub fn of_those(self, name: &'static str, number: u64) -> Summary {
        self.item(name, Value::Number(number), 2)
    }

    /// A number that is the sum of others.
    pub fn sum(
        self,
        name: &'static str,
        total: (&'static str, u64),
        parts: &[(&'static str, u64)],
    ) -> Summary {
        let parts = parts.to_vec();
        self.item(name, Value::Sum { total, parts }, 0)
    }

    /// An amount in cents.
    pub fn money(self, name: &'static str, cents: u64) -> Summary {
        self.item(name, Value::Money(cents), 0)
    }

    /// An amount in cents that is the sum of others.
    pub fn money_sum(
        self,
        name: &'static str,
        total: (&'static str, u64),
        parts: &[(&'static str, u64)],
    ) -> Summary {
        let parts = parts.to_vec();
        self.item(name, Value::MoneySum { total, parts }, 0)
    }

    /// The number of a record, the first being 1.
    pub fn place(self, name: &'static str, number: u64) -> Summary {
        self.item(name, Value::Place(number), 0)
    }

    pub fn text(self, name: &'static str, text: impl Into<String>) -> Summary {
        self.item(name, Value::Text(text.into()), 0)
    }

    /// The files that are in place. Where their folder can't be synced the status says that the run was carried out.
    pub fn placed(mut self, placed: Placed) -> Summary {
        self.written = names(&placed.written);
        if placed.warning.is_some() {
            self.status = Status::Unreported;
        }
        self.warning = placed.warning;
        self
    }

    /// What is the matter with a file that is only shown.
    pub fn problem(mut self, problem: Option<String>) -> Summary {
        if problem.is_some() {
            self.status = Status::Problem;
        }
        self.warning = problem;
        self
    }

    /// The counts, by the names that JSON has.
    pub fn counts(&self) -> Vec<(String, u64)> {
        let count = |item: &Item| match item.value {
            Value::Number(number) => Some((member(item.name), number)),
            _ => None,
        };
        self.items.iter().filter_map(count).collect()
    }

    pub fn command(&self) -> &'static str {
        self.command
    }

    pub fn status(&self) -> Status {
        self.status
    }

    pub fn warned(&self) -> Option<&str> {
        self.warning.as_deref()
    }

    /// What stands behind the command's name.
    pub fn words(&self) -> &str {
        &self.heading
    }

    /// The names and values, and the files written.
    pub fn lines(&self) -> Vec<(String, String)> {
        let items = self.items.iter();
        let items = items.map(|item| (item.shown(), item.value.shown()));
        let written = self.written.iter();
        let written = written.map(|path| ("written".to_string(), path.clone()));
        items.chain(written).collect()
    }

    /// The line that comes first.
    pub fn put_heading<W: Write>(&self, screen: &mut Screen<W>) -> io::Result<()> {
        let heading = format!("{}: {}", self.command, self.heading);
        screen.line(Style::Heading, &heading)
    }

    pub fn put_text<W: Write>(&self, screen: &mut Screen<W>) -> io::Result<()> {
        self.put_heading(screen)?;
        let lines = self.lines();
        let names = lines.iter().map(|(name, _)| name.len());
        let width = names.chain(["written".len()]).max().unwrap_or(0);
        for (name, value) in lines {
            screen.plain(&format!("  {name:<width$}  {value}"))?;
        }
        Ok(())
    }

    /// The members of the object that every report is; more may follow.
    pub fn put_json<W: Write>(&self, json: &mut Json<W>) -> io::Result<()> {
        json.text_of("command", self.command)?;
        json.text_of("version", VERSION)?;
        json.text_of("schema", &schema_of(self.command))?;
        json.text_of("outcome", self.outcome)?;
        json.number_of("status", self.status as u64)?;
        if let Some(verdict) = &self.verdict {
            json.text_of("verdict", verdict)?;
        }
        for item in &self.items {
            json.any_name(&member(item.name))?;
            item.value.put_json(json)?;
        }
        json.name("written")?;
        json.begin_array()?;
        for path in &self.written {
            json.text(path)?;
        }
        json.end_array()?;
        if let Some(warning) = &self.warning {
            json.text_of("warning", warning)?;
        }
        Ok(())
    }
}

impl Item {
    fn shown(&self) -> String {
        match self.level {
            0 => self.name.to_string(),
            level => format!("{}of which {}", "  ".repeat(level), self.name),
        }
    }
}

impl Value {
    fn shown(&self) -> String {
        match self {
            Value::Number(number) => grouped(*number),
            Value::Place(number) => format!("{}, the first being 1", grouped(*number)),
            Value::Text(text) => text.clone(),
            Value::Money(cents) => money(*cents),
            Value::Sum { total, parts } => equation(total.1, parts, grouped),
            Value::MoneySum { total, parts } => equation(total.1, parts, money),
        }
    }

    fn put_json<W: Write>(&self, json: &mut Json<W>) -> io::Result<()> {
        match self {
            Value::Number(number) | Value::Place(number) => json.number(*number),
            Value::Text(text) => json.text(text),
            Value::Money(cents) => json.cents(*cents),
            Value::Sum { total, parts } => {
                json.begin_object()?;
                for (name, number) in [total].into_iter().chain(parts) {
                    json.any_name(&member(name))?;
                    json.number(*number)?;
                }
                json.end_object()
            }
            Value::MoneySum { total, parts } => {
                json.begin_object()?;
                for (name, cents) in [total].into_iter().chain(parts) {
                    json.any_name(&member(name))?;
                    json.cents(*cents)?;
                }
                json.end_object()
            }
        }
    }
}

/// `7 = 4 accepted + 3 rejected`.
fn equation(total: u64, parts: &[(&str, u64)], shown: fn(u64) -> String) -> String {
    let part = |(name, number): &(&str, u64)| format!("{} {name}", shown(*number));
    let parts: Vec<String> = parts.iter().map(part).collect();
    format!("{} = {}", shown(total), parts.join(" + "))
}

/// The schema of a command's JSON: its name, and a number that rises when a member goes or is changed.
pub fn schema_of(command: &str) -> String {
    format!("{command}.1")
}

/// The name of a member in JSON.
fn member(name: &str) -> String {
    name.replace([' ', '-'], "_").to_lowercase()
}
