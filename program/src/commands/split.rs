//! split: a batch cut into parts that, applied one behind the other, do what it does.

use std::ffi::{OsStr, OsString};
use std::io::{self, Write};
use std::path::PathBuf;

use fantanolive::{totals, Totals, RECORD};

use crate::arguments::Arguments;
use crate::code_page::{convert, Charset};
use crate::commands::output::{form_of, print, put_notes};
use crate::failure::{counted, headed, shown, Failure, Status, STANDARD};
use crate::files::outputs::Outputs;
use crate::files::read::{read, Input};
use crate::files::replace::Staged;
use crate::progress::Progress;
use crate::records::columns::control;
use crate::records::control_record::control_record;
use crate::records::cuts::Cuts;
use crate::records::kinds::BATCH;
use crate::records::name_changes::{renamed, Renamed, KEY_FIELDS};
use crate::report::batch_notes::see_whole;
use crate::report::json::Json;
use crate::report::notes::refused;
use crate::report::screen::{Screen, Style};
use crate::report::summary::Summary;

/// The most parts: their names end with three digits.
const MOST: usize = 999;

/// A part: its first detail, the one behind its last, the first being 0, and the totals of its control record.
struct Part {
    first: usize,
    end: usize,
    totals: Totals,
}

pub fn run(arguments: &Arguments, progress: &Progress) -> Result<Status, Failure> {
    let way = Way::of(arguments)?;
    let charset = arguments.charset();
    let mut batch = read(arguments.path(0), &BATCH, charset, progress)?.into_ebcdic()?;
    see_whole(&batch)?;
    progress.now("cutting the batch");
    let ends = ends_of(arguments, &batch, &way)?;
    let files = files_of(arguments, ends.len())?;
    let outputs = Outputs::open_files(arguments, &files, &[arguments.path(0)])?;
    let notes = of_others(arguments, files.len())?;
    let (parts, staged) = stage_parts(&outputs, charset, progress, &mut batch, &ends)?;
    let form = form_of(arguments, Charset::Ebcdic);
    let last = batch.last().unwrap_or_default();
    let summary = Summary::new("split", Status::Done)
        .text("state", form.field(&control::STATE, last))
        .number("details", batch.records().saturating_sub(1) as u64)
        .placed(outputs.put_in_place(staged)?);
    let names = files.iter().map(|file| file.display().to_string());
    let made = Made {
        parts,
        files: names.collect(),
        notes,
    };
    print(
        arguments,
        progress,
        &summary,
        |screen| made.put_text(screen),
        |json| made.put_json(json),
    )
}

/// How a batch is to be cut.
enum Way {
    /// Behind these records, the first being 1.
    At(Vec<u64>),
    /// Into parts of at most so many records.
    Most(u64),
}

impl Way {
    fn of(arguments: &Arguments) -> Result<Way, Failure> {
        let (at, most) = (arguments.numbers("--at")?, arguments.number("--records")?);
        match (at, most) {
            (Some(places), None) if places.is_sorted_by(|one, next| one < next) => {
                Ok(Way::At(places))
            }
            (Some(_), None) => Err(arguments.wrong("--at wants each number above the one before")),
            (None, Some(0)) => Err(arguments.wrong("--records wants a number above 0")),
            (None, Some(most)) => Ok(Way::Most(most)),
            _ => Err(arguments.wrong("give one of --at N,.. and --records N")),
        }
    }
}

/// The ends of the parts.
fn ends_of(arguments: &Arguments, batch: &Input, way: &Way) -> Result<Vec<usize>, Failure> {
    let details = batch.records() - 1;
    let keys = renamed(&batch.bytes[..details * RECORD]);
    let cuts = Cuts::of(details, &keys);
    let stop = Stop {
        arguments,
        batch,
        cuts: &cuts,
    };
    match way {
        Way::At(places) => {
            let mut ends = Vec::new();
            for &place in places {
                let cut = usize::try_from(place).unwrap_or(usize::MAX);
                if cut == 0 || cut >= details {
                    let all = counted(details as u64, "detail");
                    let what = format!("--at {place}: the batch has {all}, and a cut stands behind one of them that isn't the last");
                    return Err(arguments.wrong(what));
                }
                ends.push(cut);
            }
            stop.at(&ends)?;
            ends.push(details);
            Ok(ends)
        }
        Way::Most(most) => {
            let most = usize::try_from(*most).unwrap_or(usize::MAX);
            let most = most.min(details.max(1));
            cuts.ends(most).map_err(|start| stop.of_part(start, most))
        }
    }
}

/// What says why a batch isn't cut.
struct Stop<'a> {
    arguments: &'a Arguments,
    batch: &'a Input,
    cuts: &'a Cuts<'a>,
}

impl Stop<'_> {
    /// Sees that no key stops the cuts.
    fn at(&self, cuts: &[usize]) -> Result<(), Failure> {
        let mut notes = Vec::new();
        for &cut in cuts {
            let keys = self.cuts.stopping(cut);
            notes.extend(keys.map(|key| self.note(cut, key)));
        }
        if notes.is_empty() {
            return Ok(());
        }
        let places: Vec<String> = cuts
            .iter()
            .filter(|&&cut| self.cuts.stopping(cut).next().is_some())
            .map(ToString::to_string)
            .collect();
        let what = format!("can't be cut behind record {}", places.join(", "));
        Err(self.failure(&what, notes))
    }

    /// That a part can't have so few records.
    fn of_part(&self, start: usize, most: usize) -> Failure {
        let cut = start + most;
        let keys = self.cuts.stopping(cut);
        let notes = keys.map(|key| self.note(cut, key)).collect();
        let what = format!(
            "can't be cut into parts of at most {}; of at most {} it can",
            counted(most as u64, "record"),
            self.cuts.fewest()
        );
        self.failure(&what, notes)
    }

    fn failure(&self, what: &str, notes: Vec<String>) -> Failure {
        Failure::Stopped {
            message: format!(
                "{}: {what}: all records of a key that has a B go into one part",
                self.batch.name()
            ),
            notes,
        }
    }

    /// A key with records on both sides of a cut.
    fn note(&self, cut: usize, renamed: &Renamed) -> String {
        let form = form_of(self.arguments, Charset::Ebcdic);
        let mut key = String::new();
        form.put_key(&KEY_FIELDS, self.batch.record(renamed.first), &mut key);
        format!(
            "behind record {cut}: {key} has records from {} to {}, and a B in record {}",
            renamed.first + 1,
            renamed.last + 1,
            renamed.name_change + 1
        )
    }
}

/// The names of the parts: the prefix and three digits.
fn files_of(arguments: &Arguments, parts: usize) -> Result<Vec<PathBuf>, Failure> {
    let prefix = arguments.needed("--out");
    if prefix == STANDARD {
        return Err(arguments.wrong("--out can't be -: the parts are several files"));
    }
    if parts > MOST {
        let what = format!("{} are more than {MOST}", counted(parts as u64, "part"));
        return Err(arguments.wrong(what));
    }
    Ok((1..=parts).map(|number| file_of(prefix, number)).collect())
}

fn file_of(prefix: &OsStr, number: usize) -> PathBuf {
    let mut name: OsString = prefix.to_os_string();
    name.push(format!("{number:03}"));
    PathBuf::from(name)
}

/// Files of an earlier run with numbers behind that of the last part: they stop the run, or stay with --force and are named.
fn of_others(arguments: &Arguments, parts: usize) -> Result<Vec<String>, Failure> {
    let prefix = arguments.needed("--out");
    let behind = (parts + 1..=MOST).map(|number| file_of(prefix, number));
    let there = behind.filter(|file| file.symlink_metadata().is_ok());
    let words = match arguments.flag("--force") {
        true => "stays as it is, and is no part of this batch",
        false => "is there, and is no part of this batch",
    };
    let notes: Vec<String> = there
        .map(|file| format!("{} {words}", shown(&file)))
        .collect();
    if notes.is_empty() || arguments.flag("--force") {
        return Ok(notes);
    }
    let parts = counted(parts as u64, "part");
    Err(Failure::Stopped {
        message: format!("the batch has {parts}, and there are files with higher numbers: move them away, or give --force, and they stay"),
        notes,
    })
}

/// Writes each part with its control record.
fn stage_parts(
    outputs: &Outputs,
    charset: Charset,
    progress: &Progress,
    batch: &mut Input,
    ends: &[usize],
) -> Result<(Vec<Part>, Vec<Staged<'static>>), Failure> {
    let (mut parts, mut staged) = (Vec::new(), Vec::new());
    let mut first = 0;
    for (number, &end) in ends.iter().enumerate() {
        let (part, mut record) = part_of(batch, first, end)?;
        let details = &mut batch.bytes[first * RECORD..end * RECORD];
        if charset.is_ascii() {
            // the batch came from ASCII
            let _ = convert(details, charset);
            let _ = convert(&mut record, charset);
        }
        staged.push(outputs.stage_file(number, progress, details, &record)?);
        parts.push(part);
        first = end;
    }
    Ok((parts, staged))
}

/// A part and its control record. The record behind its details, whatever it is, stands in that one's place for the totals.
fn part_of(batch: &Input, first: usize, end: usize) -> Result<(Part, Vec<u8>), Failure> {
    let with_next = &batch.bytes[first * RECORD..(end + 1) * RECORD];
    let totals = totals(with_next).map_err(|refusal| refused(refusal, Vec::new()))?;
    let state = control::STATE.of(batch.last().unwrap_or_default());
    // no total of a part is larger than that of the batch
    let record = control_record(state, &totals).unwrap_or_default();
    Ok((Part { first, end, totals }, record))
}

/// The parts and their names.
struct Made {
    parts: Vec<Part>,
    files: Vec<String>,
    /// What is known of other files.
    notes: Vec<String>,
}

impl Made {
    fn put_text<W: Write>(&self, screen: &mut Screen<W>) -> io::Result<()> {
        screen.plain("")?;
        let heading = headed(self.parts.len() as u64, ("part", "parts"));
        screen.line(Style::Heading, &heading)?;
        for (number, part) in self.parts.iter().enumerate() {
            let totals = &part.totals;
            let total = |count, amount| {
                let records = counted(count, "record");
                format!("{records} of {}", counted(amount, "dollar"))
            };
            screen.plain(&format!(
                "part {}  {}  TANF: {}  Non-TANF: {}",
                number + 1,
                part.place(),
                total(totals.tanf_count, totals.tanf_amount),
                total(totals.non_tanf_count, totals.non_tanf_amount),
            ))?;
        }
        let mut notes = self.notes.iter();
        notes.try_for_each(|note| screen.wrapped(Style::Warning, "", note, 2))
    }

    fn put_json<W: Write>(&self, json: &mut Json<W>) -> io::Result<()> {
        json.name("parts")?;
        json.begin_array()?;
        for (part, file) in self.parts.iter().zip(&self.files) {
            let totals = &part.totals;
            json.begin_object()?;
            json.text_of("file", file)?;
            json.number_of("first", part.first as u64 + 1)?;
            json.number_of("last", part.end as u64)?;
            json.number_of("tanf_records", totals.tanf_count)?;
            json.number_of("non_tanf_records", totals.non_tanf_count)?;
            json.number_of("tanf_amount", totals.tanf_amount)?;
            json.number_of("non_tanf_amount", totals.non_tanf_amount)?;
            json.end_object()?;
        }
        json.end_array()?;
        put_notes(json, &self.notes)
    }
}

impl Part {
    /// `records 3 to 5`.
    fn place(&self) -> String {
        match self.end - self.first {
            0 => "no records".to_string(),
            1 => format!("record {}", self.end),
            _ => format!("records {} to {}", self.first + 1, self.end),
        }
    }
}
