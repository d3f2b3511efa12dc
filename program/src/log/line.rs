//! A line of the log: one run.

use std::io;

use fantanolive::VERSION;

use crate::log::time;
use crate::log::value::{self, Value};
use crate::mask::masked_typed;
use crate::report::json::Json;

/// A file that a run read, or the journal that it wrote.
#[derive(Clone, Debug, PartialEq, Eq)]
pub struct InputPrint {
    /// What it is: batch, locals, collections, journal.
    pub kind: String,
    /// Its name without its folder, and without an SSN.
    pub name: String,
    /// The fingerprint of its bytes in EBCDIC.
    pub sha256: String,
}

/// A run on a master.
#[derive(Clone, Debug, PartialEq, Eq)]
pub struct Run {
    pub time: String,
    pub version: String,
    pub command: String,
    pub status: u64,
    pub inputs: Vec<InputPrint>,
    /// The journal that it wrote.
    pub journal: Option<InputPrint>,
    /// The fingerprints of the master; none where there is none, or no row.
    pub before: Option<String>,
    pub after: Option<String>,
    pub counts: Vec<(String, u64)>,
}

/// How a line begins.
const FRONT: &[u8] = b"{\"time\":\"";

/// Whether a file is such a log.
pub fn is_log(bytes: &[u8]) -> bool {
    bytes.starts_with(FRONT)
}

impl Run {
    /// A run now.
    pub fn now(command: &str) -> Run {
        Run {
            time: time::now(),
            version: VERSION.to_string(),
            command: command.to_string(),
            status: 0,
            inputs: Vec::new(),
            journal: None,
            before: None,
            after: None,
            counts: Vec::new(),
        }
    }

    /// Whether its first input has this fingerprint.
    pub fn takes(&self, sha256: &str) -> bool {
        let first = self.inputs.first();
        first.is_some_and(|first| first.sha256 == sha256)
    }

    /// Whether its first input may have so many records but the last: the count of apply or of post says so, or none does.
    pub fn may_count(&self, records: u64) -> bool {
        let is_count = |name: &str| matches!(name, "details" | "lines");
        let mut counts = self.counts.iter().filter(|(name, _)| is_count(name));
        counts.all(|(_, count)| *count == records)
    }

    /// Writes the line, its line feed too.
    pub fn put(&self, out: &mut Vec<u8>) -> io::Result<()> {
        let mut json = Json::new(out);
        json.begin_object()?;
        self.put_members(&mut json)?;
        json.end_object()?;
        json.finish()
    }

    /// The members of its object.
    pub fn put_members<W: io::Write>(&self, json: &mut Json<W>) -> io::Result<()> {
        json.text_of("time", &self.time)?;
        json.text_of("version", &self.version)?;
        json.text_of("command", &self.command)?;
        json.number_of("status", self.status)?;
        json.name("inputs")?;
        json.begin_array()?;
        for input in &self.inputs {
            put_input(json, input)?;
        }
        json.end_array()?;
        if let Some(journal) = &self.journal {
            json.name("journal")?;
            put_input(json, journal)?;
        }
        json.maybe_text_of("master_before", self.before.as_deref())?;
        json.maybe_text_of("master_after", self.after.as_deref())?;
        json.name("counts")?;
        json.begin_object()?;
        for (name, count) in &self.counts {
            json.any_name(name)?;
            json.number(*count)?;
        }
        json.end_object()
    }

    /// Reads a line; none where it is no line of a log.
    pub fn read(line: &str) -> Option<Run> {
        let object = value::read(line)?;
        let text = |name| Some(object.member(name)?.text()?.to_string());
        let print = |name| match object.member(name)? {
            Value::Null => Some(None),
            other => Some(Some(other.text()?.to_string())),
        };
        let Some(Value::List(inputs)) = object.member("inputs") else {
            return None;
        };
        let Some(Value::Object(counts)) = object.member("counts") else {
            return None;
        };
        let journal = match object.member("journal") {
            None => None,
            Some(journal) => Some(read_input(journal)?),
        };
        let count = |(name, count): &(String, Value)| Some((name.clone(), count.number()?));
        Some(Run {
            time: text("time")?,
            version: text("version")?,
            command: text("command")?,
            status: object.member("status")?.number()?,
            inputs: inputs.iter().map(read_input).collect::<Option<_>>()?,
            journal,
            before: print("master_before")?,
            after: print("master_after")?,
            counts: counts.iter().map(count).collect::<Option<_>>()?,
        })
    }
}

fn put_input<W: io::Write>(json: &mut Json<W>, input: &InputPrint) -> io::Result<()> {
    json.begin_object()?;
    json.text_of("kind", &input.kind)?;
    json.text_of("name", &masked_typed(&input.name))?;
    json.text_of("sha256", &input.sha256)?;
    json.end_object()
}

fn read_input(object: &Value) -> Option<InputPrint> {
    let text = |name| Some(object.member(name)?.text()?.to_string());
    Some(InputPrint {
        kind: text("kind")?,
        name: text("name")?,
        sha256: text("sha256")?,
    })
}

#[cfg(test)]
mod tests {
    use super::*;
    use crate::log::sha256::sha256;

    #[test]
    fn lines_are_read_as_they_are_written() {
        let mut run = Run::now("post");
        run.after = Some(sha256(b"after"));
        run.counts = vec![("lines".to_string(), 4)];
        run.inputs = vec![InputPrint {
            kind: "collections".to_string(),
            name: "a \"weekly\" file\n".to_string(),
            sha256: sha256(b"weekly"),
        }];
        let mut bytes = Vec::new();
        run.put(&mut bytes).expect("a list takes everything");
        assert!(is_log(&bytes));
        let text = String::from_utf8(bytes).expect("it is text");
        let line = text.strip_suffix('\n').expect("it ends with a line feed");
        assert_eq!(Run::read(line), Some(run));
        assert_eq!(Run::read(&line[1..]), None);
        assert_eq!(Run::read(&line[..line.len() - 1]), None);
    }
}
