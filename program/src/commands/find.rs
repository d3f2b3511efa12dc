//! find: the rows of cases in a master.

use std::io::{self, Write};

use fantanolive::{Refusal, KEY, NO_PLACE, ROW};

use crate::arguments::Arguments;
use crate::code_page::Charset;
use crate::commands::keys::{keys_of, Key, Keys};
use crate::commands::master::{notes_of, read_master};
use crate::commands::output::{form_of, print, printed};
use crate::failure::{Failure, Status};
use crate::files::read::Input;
use crate::progress::Progress;
use crate::records::columns::row;
use crate::records::field::Form;
use crate::report::fields::{put_list, Members};
use crate::report::json::Json;
use crate::report::key_faults;
use crate::report::notes;
use crate::report::screen::{Screen, Style};
use crate::report::summary::Summary;

pub fn run(arguments: &Arguments, progress: &Progress) -> Result<Status, Failure> {
    let keys = keys_of(arguments)?;
    let mut master = read_master(arguments, 0, progress)?;
    progress.now("finding the cases");
    let counted = keys.counted;
    let full = arguments.flag("--full");
    let of_key = key_notes(&keys, full);
    let looked_up = match counted {
        None => look_up_one(keys, &master),
        Some(_) => look_up(keys, &master),
    };
    let (answers, comparisons) = looked_up.map_err(|refusal| {
        let notes = match refusal {
            Refusal::UnsoundKey => of_key,
            _ => notes_of(refusal, &mut master, full),
        };
        notes::refused(refusal, notes)
    })?;
    let found = Found {
        master: &master,
        answers: &answers,
        comparisons,
        form: form_of(arguments, Charset::Ebcdic),
    };
    match counted {
        None => found.report_one(arguments, progress, &answers[0]),
        Some(counted) => found.report_all(arguments, progress, counted),
    }
}

/// What is wrong with a key that is given alone.
fn key_notes(keys: &Keys, full: bool) -> Vec<String> {
    match (keys.counted, keys.list.first()) {
        (None, Some(key)) => notes_on(key, full),
        _ => Vec::new(),
    }
}

/// What is wrong with a key, with the key where it is as long as one.
fn notes_on(key: &Key, full: bool) -> Vec<String> {
    let faults = key.faults().join("; ");
    match key.bytes().try_into() {
        _ if faults.is_empty() => Vec::new(),
        Ok(bytes) => vec![format!("key {}: {faults}", key_faults::shown(bytes, full))],
        Err(_) => vec![format!("the key: {faults}")],
    }
}

/// The answers to keys, and how many comparisons they took.
type LookedUp = Result<(Vec<Answer>, u64), Refusal>;

/// Looks up the one key that is given.
fn look_up_one(keys: Keys, master: &Input) -> LookedUp {
    let answer = |key: Key| {
        let found = fantanolive::find(&master.bytes, master.records(), key.bytes());
        Ok(Answer {
            key,
            place: Ok(found?),
        })
    };
    let answers: Result<_, Refusal> = keys.list.into_iter().map(answer).collect();
    Ok((answers?, 0))
}

/// Looks up several keys by one call, which wants sound ones in rising order, each once.
fn look_up(keys: Keys, master: &Input) -> LookedUp {
    // over no rows the call looks at the key alone
    let is_sound = |key: &&Key| fantanolive::find(&[], 0, key.bytes()) != Err(Refusal::UnsoundKey);
    let sound = keys.list.iter().filter(is_sound);
    let mut rising: Vec<[u8; KEY]> = sound
        .filter_map(|key| key.bytes().try_into().ok())
        .collect();
    rising.sort_unstable();
    rising.dedup();
    let mut places = vec![NO_PLACE; rising.len()];
    let joined = rising.as_flattened();
    let comparisons = fantanolive::find_many(&master.bytes, master.records(), joined, &mut places)?;
    let place = |key: &Key| match rising.binary_search_by(|other| other[..].cmp(key.bytes())) {
        Err(_) => Err(Refusal::UnsoundKey),
        Ok(at) if places[at] == NO_PLACE => Err(Refusal::NoSuchRow),
        Ok(at) => Ok(u64::from(places[at])),
    };
    let answers = keys.list.into_iter().map(|key| Answer {
        place: place(&key),
        key,
    });
    Ok((answers.collect(), comparisons))
}

/// What the call answered to a key.
struct Answer {
    key: Key,
    place: Result<u64, Refusal>,
}

impl Answer {
    fn status(&self) -> Status {
        match self.place {
            Ok(_) => Status::Done,
            Err(Refusal::NoSuchRow) => Status::NotFound,
            Err(_) => Status::Refused,
        }
    }

    fn words(&self) -> String {
        match self.place {
            Ok(_) => "found".to_string(),
            Err(Refusal::NoSuchRow) => "not found".to_string(),
            Err(refusal) => refusal.to_string(),
        }
    }
}

struct Found<'a> {
    master: &'a Input,
    answers: &'a [Answer],
    comparisons: u64,
    form: Form,
}

impl Found<'_> {
    fn row(&self, place: u64) -> &[u8] {
        &self.master.bytes[place as usize * ROW..][..ROW]
    }

    /// The key of an answer; none where it is no key.
    fn key(&self, answer: &Answer) -> Option<String> {
        let bytes = answer.key.bytes();
        let is_key = answer.place != Err(Refusal::UnsoundKey) && bytes.len() == KEY;
        is_key.then(|| {
            let mut shown = String::new();
            let key = [row::STATE, row::SSN, row::CASE_TYPE];
            self.form.put_key(&key, bytes, &mut shown);
            shown
        })
    }

    /// What is wrong with what is no key.
    fn fault(&self, answer: &Answer) -> Option<String> {
        let is_none = answer.place == Err(Refusal::UnsoundKey);
        let notes = is_none.then(|| notes_on(&answer.key, self.form.full));
        notes.and_then(|notes| notes.into_iter().next())
    }

    /// The front of an answer: the key, and the row by its number, the first being 1.
    fn summary(&self, answer: &Answer) -> Summary {
        let mut summary = Summary::new("find", answer.status());
        if let Some(key) = self.key(answer) {
            summary = summary.text("key", key);
        }
        if let Ok(place) = answer.place {
            summary = summary
                .heading("found")
                .place("row", place + 1)
                .number("rows", self.master.records() as u64);
        }
        summary
    }

    /// The answer to the one key that was given.
    fn report_one(
        &self,
        arguments: &Arguments,
        progress: &Progress,
        answer: &Answer,
    ) -> Result<Status, Failure> {
        let row = self.row(answer.place.unwrap_or_default());
        print(
            arguments,
            progress,
            &self.summary(answer),
            |screen| {
                screen.plain("")?;
                put_list(screen, row::FIELDS, row, &self.form)
            },
            |json| {
                json.name("fields")?;
                Members::of(row::FIELDS).put(json, row, &self.form)
            },
        )
    }

    /// The answers to several keys, with numbers that count lines or arguments.
    fn report_all(
        &self,
        arguments: &Arguments,
        progress: &Progress,
        counted: &'static str,
    ) -> Result<Status, Failure> {
        let summary = self.counts();
        printed(
            arguments,
            progress,
            |screen| {
                self.put_text(screen, counted)?;
                if self.answers.len() > 1 {
                    screen.plain("")?;
                    summary.put_text(screen)?;
                }
                Ok(())
            },
            |json| {
                summary.put_json(json)?;
                self.put_json(json, counted)
            },
        )?;
        Ok(summary.status())
    }

    /// How many keys are found and how many aren't.
    fn counts(&self) -> Summary {
        let count = |status| {
            let same = self.answers.iter().filter(|a| a.status() == status);
            same.count() as u64
        };
        let (missing, refused) = (count(Status::NotFound), count(Status::Refused));
        let status = match (refused, missing) {
            (1.., _) => Status::Refused,
            (0, 1..) => Status::NotFound,
            _ => Status::Done,
        };
        Summary::new("find", status)
            .heading("all keys")
            .number("keys", self.answers.len() as u64)
            .of_which("found", count(Status::Done))
            .of_which("not found", missing)
            .of_which("refused", refused)
            .number("comparisons", self.comparisons)
    }

    fn put_text<W: Write>(&self, screen: &mut Screen<W>, counted: &str) -> io::Result<()> {
        for (number, answer) in self.answers.iter().enumerate() {
            if number > 0 {
                screen.plain("")?;
            }
            if let Ok(place) = answer.place {
                self.summary(answer).put_text(screen)?;
                screen.plain("")?;
                put_list(screen, row::FIELDS, self.row(place), &self.form)?;
                continue;
            }
            screen.line(Style::Error, &format!("find: {}", answer.words()))?;
            match self.key(answer) {
                Some(key) => screen.plain(&format!("  key      {key}"))?,
                None => screen.plain(&format!("  {counted:<7}  {}", answer.key.number))?,
            }
            if let Some(note) = self.fault(answer) {
                screen.wrapped(Style::Plain, "  ", &note, 2)?;
            }
        }
        Ok(())
    }

    fn put_json<W: Write>(&self, json: &mut Json<W>, counted: &'static str) -> io::Result<()> {
        let members = Members::of(row::FIELDS);
        json.name("answers")?;
        json.begin_array()?;
        for answer in self.answers {
            json.begin_object()?;
            json.number_of(counted, answer.key.number)?;
            json.text_of("answer", &answer.words())?;
            json.number_of("status", answer.status() as u64)?;
            if let Some(key) = self.key(answer) {
                json.text_of("key", &key)?;
            }
            if let Some(fault) = self.fault(answer) {
                json.text_of("fault", &fault)?;
            }
            if let Ok(place) = answer.place {
                json.number_of("row", place + 1)?;
                json.name("fields")?;
                members.put(json, self.row(place), &self.form)?;
            }
            json.end_object()?;
        }
        json.end_array()
    }
}
