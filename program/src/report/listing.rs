//! How much of its lists a report shows: --limit, --all and --by-office.

use std::io::{self, Write};

use crate::arguments::Arguments;
use crate::failure::{grouped, headed, Failure};
use crate::report::json::Json;
use crate::report::screen::{Screen, Style};

/// How many records are listed where nothing else is said.
const USUAL: usize = 10;

pub struct Listing {
    /// The most records of a list, in text; and in JSON and files, which have all unless --limit is given.
    pub most: usize,
    pub most_in_files: usize,
    /// Whether the records of an office stand together.
    pub by_office: bool,
}

impl Listing {
    pub fn of(arguments: &Arguments) -> Result<Listing, Failure> {
        let limit = arguments.number("--limit")?;
        let limit = limit.map(|limit| usize::try_from(limit).unwrap_or(usize::MAX));
        let all = arguments.flag("--all");
        if limit.is_some() && all {
            return Err(arguments.wrong("give one of --limit N and --all"));
        }
        let usual = if all { usize::MAX } else { USUAL };
        Ok(Listing {
            most: limit.unwrap_or(usual),
            most_in_files: limit.unwrap_or(usize::MAX),
            by_office: arguments.flag("--by-office"),
        })
    }

    /// A blank line and how many records follow, where any do.
    pub fn put_heading<W: Write>(
        &self,
        screen: &mut Screen<W>,
        count: usize,
        words: (&str, &str),
    ) -> io::Result<()> {
        screen.plain("")?;
        let heading = headed(count as u64, words);
        match count > self.most && self.most > 0 {
            true => {
                let first = format!("{heading}, the first {}", self.most);
                screen.line(Style::Heading, &first)
            }
            false => screen.line(Style::Heading, &heading),
        }
    }

    /// How many records a list in a file is of, and how many of them it has.
    pub fn caption(&self, count: usize, words: (&str, &str)) -> String {
        let heading = headed(count as u64, words);
        match (count > self.most_in_files, self.most_in_files) {
            (false, _) => heading,
            (true, 0) => format!("{heading}, none of them listed"),
            (true, most) => format!("{heading}, the first {}", grouped(most as u64)),
        }
    }

    /// How many records a list in JSON doesn't have.
    pub fn put_left_out<W: Write>(&self, json: &mut Json<W>, count: usize) -> io::Result<()> {
        let left_out = count.saturating_sub(self.most_in_files);
        json.number_of("left_out", left_out as u64)
    }

    /// Where the records are that are not listed.
    pub fn put_rest<W: Write>(&self, screen: &mut Screen<W>, count: usize) -> io::Result<()> {
        let rest = count.saturating_sub(self.most);
        if rest == 0 {
            return Ok(());
        }
        let more = headed(rest as u64, ("more", "more"));
        let place = match self.most_in_files < count {
            true => "--all lists them; without --limit files have them too",
            false => "--all lists them, --html FILE and --csv FILE write them to a file",
        };
        screen.plain(&format!("{more}: {place}"))
    }
}
