//! show: the records of a file as text.

use std::io::{self, Write};
use std::ops::Range;

use crate::arguments::Arguments;
use crate::code_page::argument;
use crate::commands::output::{form_of, printed, warn};
use crate::failure::{counted, grouped, headed, Failure, Status, STANDARD};
use crate::files::length::{of_length, too_long};
use crate::files::protect;
use crate::files::read::{read, Input};
use crate::nearest::nearest;
use crate::progress::Progress;
use crate::records::columns::{Field, Layout};
use crate::records::field::{Form, Placeholder};
use crate::records::kinds::{FileKind, KINDS, LOCALS, MASTER};
use crate::records::selection::{field_of, Selection};
use crate::report::fields::{in_order, put_list, Members, Table};
use crate::report::json::Json;
use crate::report::notes;
use crate::report::screen::{Screen, Style};
use crate::report::summary::Summary;

/// The kind that the first operand names.
pub fn kind_of(arguments: &Arguments) -> Result<&'static FileKind, Failure> {
    let given = arguments.operand(0).to_string_lossy();
    let found = KINDS.into_iter().find(|kind| kind.name == given);
    found.ok_or_else(|| {
        let names: Vec<&str> = KINDS.iter().map(|kind| kind.name).collect();
        let near = nearest(&given, &mut KINDS.iter().map(|kind| kind.name));
        let near = near.map_or(String::new(), |name| format!("; did you mean '{name}'?"));
        let list = names.join(", ");
        arguments.wrong(format!("'{given}' is no kind of file: {list}{near}"))
    })
}

/// The number that an option gives.
fn number_of(arguments: &Arguments, name: &str) -> Result<Option<usize>, Failure> {
    let given = arguments.number(name)?;
    Ok(given.map(|number| usize::try_from(number).unwrap_or(usize::MAX)))
}

/// The most records that are shown.
fn count_of(arguments: &Arguments) -> Result<usize, Failure> {
    Ok(number_of(arguments, "--count")?.unwrap_or(usize::MAX))
}

/// The records that are looked at, the first being 0: those that are shown, or all from one on where some are looked for.
fn range_of(
    arguments: &Arguments,
    records: usize,
    shows_all: bool,
) -> Result<Range<usize>, Failure> {
    let from = number_of(arguments, "--from")?.unwrap_or(1);
    if from == 0 {
        return Err(arguments.wrong("--from counts from 1"));
    }
    let start = (from - 1).min(records);
    let count = match shows_all {
        true => count_of(arguments)?,
        false => records,
    };
    Ok(start..start.saturating_add(count).min(records))
}

/// What is shown of a file.
struct Shown<'a> {
    input: &'a Input,
    range: Range<usize>,
    form: Form,
    selection: Selection,
    /// The most records that are shown.
    most: usize,
    /// The fields that are asked for; none where all are shown.
    fields: Option<Vec<&'static Field>>,
}

/// That the last record is the one of another kind with records as wide.
fn of_kind(input: &Input, form: &Form) -> Option<String> {
    let record = input.last()?;
    let has_its_word = |kind: &&&FileKind| kind.marked(record, form).is_some();
    let alike = KINDS.iter().filter(|kind| kind.width == input.kind.width);
    let marked: Vec<_> = alike.filter(has_its_word).collect();
    let is_other = marked.iter().all(|kind| kind.name != input.kind.name);
    let last = marked.first()?.last.as_ref()?;
    is_other.then(|| {
        format!(
            "{}: the last record has {} in columns {}: the file is of another kind",
            input.name(),
            last.word,
            last.mark.columns()
        )
    })
}

/// What keeps a record from being one of its kind: the library takes a row for none, or a byte of another is no character.
fn fault_of(input: &Input, number: usize, form: &Form) -> Option<String> {
    let record = input.record(number);
    let what = if input.kind.name == MASTER.name {
        (!protect::is_master(record)).then(|| "it is not sound".to_string())?
    } else {
        let marked = input.kind.marked(record, form);
        let fields = marked.map_or(input.kind.fields, |last| last.fields);
        let place = form.no_character(fields, record)?;
        let (column, byte) = (place + 1, record[place]);
        format!("column {column} is hexadecimal {byte:02X}, no character")
    };
    let (name, kind, shown) = (input.name(), input.kind, number + 1);
    Some(format!(
        "{name}: {} {shown} can't be one of a file of this kind ({}): {what}; --all goes on",
        kind.record, kind.name
    ))
}

/// The records up to the first that can't be one, and what is wrong with that.
fn cut_off(input: &Input, range: Range<usize>, form: &Form) -> (Range<usize>, Option<String>) {
    for number in range.clone() {
        if let Some(fault) = fault_of(input, number, form) {
            return (range.start..number, Some(fault));
        }
    }
    (range, None)
}

/// That a file that is to be a list of local codes is none: the first code that the library doesn't take by itself. Slices of
/// SSNs may stand there then.
fn of_codes(input: &Input) -> Option<String> {
    if input.kind.name != LOCALS.name {
        return None;
    }
    let is_code = |number: &usize| {
        let record = input.record(*number);
        match input.charset.is_ascii() {
            true => notes::is_code(&argument(record)),
            false => notes::is_code(record),
        }
    };
    let number = (0..input.records()).find(|number| !is_code(number))?;
    Some(format!(
        "{}: code {} of {} is not three digits: the file is no list of local codes",
        input.name(),
        number + 1,
        input.records()
    ))
}

/// What is wrong with the length, or the kind; an empty file has nothing to show. Without --full digits are masked then.
fn warning_of(input: &Input, form: &Form) -> Option<String> {
    let mut notes = of_length(input);
    notes.extend(of_kind(input, form));
    notes.extend(of_codes(input));
    let is_wrong = input.length > 0 && !notes.is_empty();
    if !form.full {
        let masked = "digits are masked, since an SSN may stand in any column; --full shows them";
        notes.push(masked.to_string());
    }
    is_wrong.then(|| notes.join("; "))
}

/// Reads the file of a kind, the second operand; a master is in EBCDIC and is a file.
pub fn read_kind(
    arguments: &Arguments,
    kind: &'static FileKind,
    progress: &Progress,
) -> Result<Input, Failure> {
    let charset = arguments.charset();
    if charset.is_ascii() && kind.name == MASTER.name {
        return Err(arguments.wrong("a master is always in EBCDIC; --ascii is for other files"));
    }
    if kind.name == MASTER.name && arguments.operand(1) == STANDARD {
        return Err(arguments.wrong("a master can't be -: it is no file to be read once"));
    }
    let input = read(arguments.path(1), kind, charset, progress)?;
    if input.records() > kind.most {
        return Err(Failure::file(&input.path, too_long(input.length, kind)));
    }
    Ok(input)
}

pub fn run(arguments: &Arguments, progress: &Progress) -> Result<Status, Failure> {
    let input = read_kind(arguments, kind_of(arguments)?, progress)?;
    let mut form = form_of(arguments, input.charset);
    let warning = warning_of(&input, &form);
    form.digits_masked = warning.is_some() && !form.full;
    let selection = selection_of(arguments, &input)?;
    let mut range = range_of(arguments, input.records(), selection.is_all())?;
    let mut fault = None;
    if !arguments.flag("--all") {
        (range, fault) = cut_off(&input, range, &form);
    }
    let problem: Vec<String> = fault.into_iter().chain(warning).collect();
    let problem = (!problem.is_empty()).then(|| problem.join("; "));
    let summary = Summary::new("show", Status::Done)
        .text("kind", input.kind.name)
        .number("records", input.records() as u64)
        .problem(problem);
    let shown = Shown {
        range,
        selection,
        most: count_of(arguments)?,
        fields: fields_of(arguments, input.kind)?,
        form,
        input: &input,
    };
    let as_list = arguments.flag("--list");
    printed(
        arguments,
        progress,
        |screen| shown.put_text(screen, as_list),
        |json| {
            summary.put_json(json)?;
            shown.put_json(json)
        },
    )?;
    warn(arguments, &summary);
    Ok(summary.status())
}

/// The records that --where and --search ask for.
fn selection_of(arguments: &Arguments, input: &Input) -> Result<Selection, Failure> {
    let text = |name: &str| arguments.value(name).map(|value| value.to_string_lossy());
    let (conditions, search) = (text("--where"), text("--search"));
    let form = Form::new(input.charset, Placeholder::Dot, true);
    Selection::of(
        input.kind.fields,
        conditions.as_deref(),
        search.as_deref(),
        form,
    )
    .map_err(|what| arguments.wrong(what))
}

/// The fields that --fields asks for.
fn fields_of(
    arguments: &Arguments,
    kind: &FileKind,
) -> Result<Option<Vec<&'static Field>>, Failure> {
    let Some(list) = arguments.value("--fields") else {
        return Ok(None);
    };
    let list = list.to_string_lossy();
    let fields = list.split(',').map(|name| field_of(kind.fields, name));
    let fields: Result<_, String> = fields.collect();
    fields.map(Some).map_err(|what| arguments.wrong(what))
}

impl Shown<'_> {
    /// The numbers of the records that are asked for, those that are not shown too.
    fn numbers(&self, range: Range<usize>) -> impl Iterator<Item = usize> + '_ {
        let is_wanted = |number: &usize| {
            let record = self.input.record(*number);
            self.selection.has(self.input.kind.fields, record)
        };
        range.filter(is_wanted)
    }

    /// `150 rows found, the first 2 are shown`.
    fn found(&self, found: u64) -> String {
        let record = self.input.kind.record;
        let words = (record, &*format!("{record}s"));
        let all = headed(found, words);
        match (found > self.most as u64, self.most) {
            (false, _) => format!("{all} found"),
            (true, 0) => format!("{all} found, none is shown"),
            (true, 1) => format!("{all} found, the first is shown"),
            (true, most) => format!("{all} found, the first {} are shown", grouped(most as u64)),
        }
    }

    /// The fields of the last record, where it is one of its own and is among those shown.
    fn last_fields(&self) -> Option<Layout> {
        if !self.selection.is_all() || self.fields.is_some() {
            return None;
        }
        let last = self.input.records().checked_sub(1)?;
        let record = self.input.record(last);
        let kind = self.input.kind;
        let marked = kind.marked(record, &self.form)?;
        self.range.contains(&last).then_some(marked.fields)
    }

    /// `rows 3 to 5 of 9, the first being 1`, or that there is nothing to show.
    fn caption(&self) -> String {
        let (record, records) = (self.input.kind.record, self.input.records());
        let (first, last) = (self.range.start + 1, self.range.end);
        let all = counted(records as u64, record);
        match (records, self.range.len()) {
            (0, _) => format!("no {record}: the file has none"),
            (_, 0) => format!("no {record} is shown of {all}"),
            (_, 1) => format!("{record} {first} of {records}, the first being 1"),
            _ => format!("{record}s {first} to {last} of {records}, the first being 1"),
        }
    }

    fn put_text<W: Write>(&self, screen: &mut Screen<W>, as_list: bool) -> io::Result<()> {
        screen.plain(&self.caption())?;
        let last = self.last_fields();
        let end = self.range.end - usize::from(last.is_some() || self.hides_last());
        let kind = self.input.kind;
        let columns = match &self.fields {
            Some(fields) => fields.clone(),
            None => in_order(kind.fields, kind.first),
        };
        let all: Vec<Field> = match &self.fields {
            Some(fields) => fields.iter().map(|field| **field).collect(),
            None => kind.fields.to_vec(),
        };
        let mut table = Table::new(&columns);
        let mut shown = 0;
        let mut numbers = self.numbers(self.range.start..end);
        for number in numbers.by_ref().take(self.most) {
            if as_list {
                self.put_listed(screen, number, &all)?;
            } else {
                if shown == 0 {
                    table.put_names(screen, kind.record)?;
                }
                table.put(screen, number + 1, self.input.record(number), &self.form)?;
            }
            shown += 1;
        }
        if !self.selection.is_all() {
            let found = shown + numbers.count() as u64;
            screen.plain(&self.found(found))?;
        }
        if let Some(fields) = last {
            if !as_list && shown > 0 {
                screen.plain("")?;
            }
            self.put_listed(screen, end, fields)?;
        }
        Ok(())
    }

    /// Whether the last record is one of its own that isn't shown, since fields or values of the others are asked for.
    fn hides_last(&self) -> bool {
        let Some(last) = self.input.records().checked_sub(1) else {
            return false;
        };
        let is_asked = !self.selection.is_all() || self.fields.is_some();
        let record = self.input.record(last);
        let is_own = self.input.kind.marked(record, &self.form).is_some();
        is_asked && is_own && self.range.contains(&last)
    }

    /// A record field by field below its number.
    fn put_listed<W: Write>(
        &self,
        screen: &mut Screen<W>,
        number: usize,
        fields: &[Field],
    ) -> io::Result<()> {
        let heading = format!("{} {}", self.input.kind.record, number + 1);
        screen.line(Style::Heading, &heading)?;
        put_list(screen, fields, self.input.record(number), &self.form)
    }

    fn put_json<W: Write>(&self, json: &mut Json<W>) -> io::Result<()> {
        let last = self.last_fields().map(Members::of);
        let end = self.range.end - usize::from(self.hides_last());
        let all = match &self.fields {
            Some(fields) => fields.iter().map(|field| **field).collect(),
            None => self.input.kind.fields.to_vec(),
        };
        let all = Members::of(&all);
        json.name("shown")?;
        json.begin_array()?;
        let mut numbers = self.numbers(self.range.start..end);
        let mut shown = 0;
        for number in numbers.by_ref().take(self.most) {
            let is_last = number + 1 == self.input.records();
            let members = last.as_ref().filter(|_| is_last).unwrap_or(&all);
            json.begin_object()?;
            json.number_of("record", number as u64 + 1)?;
            json.name("fields")?;
            members.put(json, self.input.record(number), &self.form)?;
            json.end_object()?;
            shown += 1;
        }
        json.end_array()?;
        match self.selection.is_all() {
            true => Ok(()),
            false => json.number_of("found", shown + numbers.count() as u64),
        }
    }
}
