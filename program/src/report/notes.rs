//! What is known of the files when a call is refused. Nothing is judged here: the library is asked again over parts of what it
//! refused, or fields are shown as they stand.

use std::ops::Range;

use fantanolive::{add_cents, apply, contacts_codes, find, Refusal, CONTACT, LOCAL_CODE, ROW};

use crate::code_page::Charset;
use crate::failure::{counted, Failure};
use crate::files::length;
use crate::files::read::Input;
use crate::records::columns::{row, Field};
use crate::records::field::{Form, Placeholder};

/// A refusal with notes.
pub fn refused(refusal: Refusal, notes: Vec<String>) -> Failure {
    Failure::Refused { refusal, notes }
}

/// How fields are shown in notes: in EBCDIC, SSNs masked unless they are asked for.
fn form(full: bool) -> Form {
    Form::new(Charset::Ebcdic, Placeholder::Dot, full)
}

/// The least number from 1 to `most` at which something holds that holds at `most` and at all above the first.
fn first_at(most: usize, mut holds: impl FnMut(usize) -> bool) -> usize {
    let (mut below, mut at) = (0, most);
    while at - below > 1 {
        let middle = below + (at - below) / 2;
        if holds(middle) {
            at = middle;
        } else {
            below = middle;
        }
    }
    at
}

/// Rows that are looked at together.
const PART: usize = 1 << 16;

/// The first row, from 1 on, at which something holds of the rows up to it that holds of all rows: of parts that begin with
/// the last row of the part before, so that each row is looked at beside the one before it.
fn first_row(rows: usize, mut holds: impl FnMut(Range<usize>) -> bool) -> usize {
    let part_of = |start: usize| start.saturating_sub(1)..(start + PART).min(rows);
    let starts = (0..rows).step_by(PART);
    let part = starts.map(part_of).find(|part| holds(part.clone()));
    let part = part.unwrap_or(0..rows);
    part.start + first_at(part.len(), |count| holds(part.start..part.start + count))
}

/// Notes on a master that was refused by 4: the first row at which the library refuses the rows up to it, or that they are
/// from before the cents. The master may be changed here.
pub fn of_rows(master: &mut Input, rows: usize, full: bool) -> Vec<String> {
    let path = master.name();
    if add_cents(&mut master.bytes[..rows * ROW], rows).is_ok() {
        return vec![format!(
            "{path}: the rows are from before the cents: run `fantanolive add-cents` once"
        )];
    }
    let unsound = |part: Range<usize>| {
        let bytes = &master.bytes[part.start * ROW..part.end * ROW];
        find(bytes, part.len(), &[]) == Err(Refusal::UnsoundRow)
    };
    let number = first_row(rows, unsound);
    // the rows before it are right: alone it is refused for itself
    let what = match unsound(number - 1..number) {
        true => "that is not sound by itself",
        false => "whose key is not above the one before",
    };
    vec![row_note(master, number, what, full)]
}

/// Notes on a master that add-cents refused by 4.
pub fn of_old_rows(master: &Input, rows: usize) -> Vec<String> {
    if find(&master.bytes, rows, &[]) != Err(Refusal::UnsoundRow) {
        let path = master.name();
        return vec![format!("{path}: the rows have their cents already")];
    }
    let mut copy = Vec::new();
    let mut unsound = |part: Range<usize>| {
        // a call that is carried out changes the rows
        copy.clear();
        copy.extend_from_slice(&master.bytes[part.start * ROW..part.end * ROW]);
        add_cents(&mut copy, part.len()) == Err(Refusal::UnsoundRow)
    };
    let number = first_row(rows, &mut unsound);
    let what = match unsound(number - 1..number) {
        true => "that is not sound by itself",
        false => "whose key is not above the one before",
    };
    vec![row_note(master, number, what, false)]
}

/// The number and key of a row, the first being 1, and what is wrong with it.
fn row_note(master: &Input, number: usize, what: &str, full: bool) -> String {
    let mut key = String::new();
    let record = &master.bytes[(number - 1) * ROW..number * ROW];
    form(full).put_key(&[row::STATE, row::SSN, row::CASE_TYPE], record, &mut key);
    format!(
        "{}: row {number} of {} is the first {what}: key {key}",
        master.name(),
        master.length / ROW as u64,
    )
}

/// Whether the library takes a code as a list by itself.
pub fn is_code(code: &[u8]) -> bool {
    apply(&mut [], 0, &[], code, 2000, &mut [], &mut []) != Err(Refusal::WrongLocals)
}

/// Notes on a list of local codes that was refused by 2.
pub fn of_locals(locals: &Input) -> Vec<String> {
    let notes = length::of_file(locals);
    if !notes.is_empty() || locals.records() == 0 {
        return notes;
    }
    // Over nothing else the call goes past the list only where it is right.
    let wrong = |count: usize| {
        let front = &locals.bytes[..count * LOCAL_CODE];
        apply(&mut [], 0, &[], front, 2000, &mut [], &mut []) == Err(Refusal::WrongLocals)
    };
    let number = first_at(locals.records(), wrong);
    let mut code = String::new();
    form(true).put_text(locals.record(number - 1), &mut code);
    vec![format!(
        "{}: code {number} of {} is the first that is not three digits, or not above the one before: '{code}'",
        locals.name(),
        locals.records(),
    )]
}

/// Notes on a table of contact records that was refused by 18: its length, or the first record at which the library refuses
/// the records up to it.
pub fn of_table(table: &Input) -> Vec<String> {
    let notes = length::of_length(table);
    if !notes.is_empty() || table.records() == 0 {
        return notes;
    }
    let wrong = |count: usize| {
        let front = &table.bytes[..count * CONTACT];
        contacts_codes(front, count, &[], &mut []) == Err(Refusal::WrongContacts)
    };
    let number = first_at(table.records(), wrong);
    let mut key = String::new();
    let record = table.record(number - 1);
    form(false).put_text(&record[..5], &mut key);
    vec![format!(
        "{}: record {number} of {} is the first that is faulty, or whose key is not above the one before: key {key}",
        table.name(),
        table.records(),
    )]
}

/// Fields of a file's last record as they stand, or that it lacks the word that a last record has.
pub fn of_last_record(input: &Input, fields: &[Field]) -> Vec<String> {
    let (Some(record), Some(last)) = (input.last(), &input.kind.last) else {
        return Vec::new();
    };
    let form = form(false);
    let start = format!(
        "{}: the last of {}",
        input.name(),
        counted(input.records() as u64, "record"),
    );
    if input.kind.marked(record, &form).is_none() {
        let columns = last.mark.columns();
        return vec![format!("{start} has no {} in columns {columns}", last.word)];
    }
    let list: Vec<String> = fields
        .iter()
        .map(|field| {
            let value = form.field(field, record);
            format!("'{value}' as {} ({})", field.name, field.columns())
        })
        .collect();
    vec![format!("{start} has {}", list.join(", "))]
}

#[cfg(test)]
mod tests {
    use super::*;

    #[test]
    fn the_first_row_of_several_parts() {
        let rows = 3 * PART + 5;
        for bad in [1, 2, PART - 1, PART, PART + 1, 2 * PART, rows - 1, rows] {
            // rows from this one on; and this one beside the one before it
            let within = |part: Range<usize>| part.contains(&(bad - 1));
            assert_eq!(first_row(rows, within), bad);
            let beside = |part: Range<usize>| {
                part.contains(&(bad - 1)) && part.start < bad.max(2) - 1
                    || bad == 1 && part.start == 0
            };
            assert_eq!(first_row(rows, beside), bad);
        }
    }
}
