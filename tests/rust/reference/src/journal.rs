//! Document 02, item 8: taking a batch back.

use std::collections::BTreeMap;

use crate::batch::{admitted, carry_out, Counts};
use crate::row::{refusal_03, refusal_04, rows_of, Key, Row, ROW};
use crate::text::SPACE;

/// Room for the two counts.
pub const LEAST_BUFFER: usize = 12;
/// Room for one entry.
pub const BUFFER_PER_DETAIL: usize = 205;

pub const NEW: u8 = 0x00;
pub const CHANGED: u8 = 0x01;
/// Stands for every number that sixty-four bits don't hold; it fits no master.
pub const TOO_LARGE: u64 = u64::MAX;

/// A key "whose row at the end differs from that at entry or is new".
#[derive(Clone, Debug, PartialEq, Eq)]
pub struct Entry {
    /// "its place after the batch"
    pub place: u64,
    /// The old row of a key that has changed; none stands for a new one.
    pub old: Option<Row>,
}

/// "the row counts before and after, then, by rising place", the entries
#[derive(Clone, Debug, PartialEq, Eq)]
pub struct Journal {
    pub before: u64,
    pub after: u64,
    pub entries: Vec<Entry>,
}

/// "Numbers are in groups of seven bits, low group first, high bit set on all but the last."
pub fn write_number(bytes: &mut Vec<u8>, number: u64) {
    let mut rest = number;
    while rest >= 128 {
        bytes.push((rest % 128) as u8 | 0x80);
        rest /= 128;
    }
    bytes.push(rest as u8);
}

/// Takes a number off the front; none where it is cut off or isn't the "shortest form".
pub fn read_number(bytes: &mut &[u8]) -> Option<u64> {
    let last = bytes.iter().position(|&byte| byte < 0x80)?;
    let (groups, rest) = bytes.split_at(last + 1);
    if last > 0 && groups[last] == 0 {
        return None;
    }
    *bytes = rest;
    let value = groups.iter().rev().try_fold(0, |higher: u64, &byte| {
        higher
            .checked_mul(128)
            .map(|higher| higher + u64::from(byte % 128))
    });
    Some(value.unwrap_or(TOO_LARGE))
}

impl Journal {
    /// What a batch did, told from the rows at entry and at the end.
    pub fn between(entry: &BTreeMap<Key, Row>, end: &BTreeMap<Key, Row>) -> Journal {
        let mut entries = Vec::new();
        for (place, (key, row)) in (0..).zip(end) {
            let old = entry.get(key).copied();
            if old != Some(*row) {
                entries.push(Entry { place, old });
            }
        }
        Journal {
            before: entry.len() as u64,
            after: end.len() as u64,
            entries,
        }
    }

    /// "a mark (00 new, 01 changed) and for 01 the old row"
    pub fn bytes(&self) -> Vec<u8> {
        let mut bytes = Vec::new();
        write_number(&mut bytes, self.before);
        write_number(&mut bytes, self.after);
        for entry in &self.entries {
            write_number(&mut bytes, entry.place);
            match entry.old {
                None => bytes.push(NEW),
                Some(old) => {
                    bytes.push(CHANGED);
                    bytes.extend(old);
                }
            }
        }
        bytes
    }

    /// The journal that bytes stand for, if they are "of this byte form" to the last.
    pub fn read(bytes: &[u8]) -> Option<Journal> {
        let mut rest = bytes;
        let before = read_number(&mut rest)?;
        let after = read_number(&mut rest)?;
        let mut entries = Vec::new();
        while !rest.is_empty() {
            entries.push(read_entry(&mut rest)?);
        }
        Some(Journal {
            before,
            after,
            entries,
        })
    }

    fn marks_new(&self) -> u64 {
        self.entries.iter().filter(|e| e.old.is_none()).count() as u64
    }

    /// The rows that taking it back leaves of a master's rows.
    fn left<'a>(&'a self, rows: impl Iterator<Item = &'a [u8]>) -> Vec<&'a [u8]> {
        let entries: BTreeMap<u64, &Entry> = self.entries.iter().map(|e| (e.place, e)).collect();
        let mut left = Vec::new();
        for (place, row) in (0..).zip(rows) {
            match entries.get(&place) {
                None => left.push(row),
                Some(entry) => left.extend(entry.old.as_ref().map(|old| &old[..])),
            }
        }
        left
    }
}

fn read_entry(bytes: &mut &[u8]) -> Option<Entry> {
    let place = read_number(bytes)?;
    let (&mark, rest) = bytes.split_first()?;
    *bytes = rest;
    match mark {
        NEW => Some(Entry { place, old: None }),
        CHANGED => {
            let (row, rest) = bytes.split_at_checked(ROW)?;
            *bytes = rest;
            let mut old = [SPACE; ROW];
            old.copy_from_slice(row);
            Some(Entry {
                place,
                old: Some(old),
            })
        }
        _ => None,
    }
}

/// "a journal buffer below 12 + 205 × (details)" bytes
pub fn refusal_25(journal: &[u8], details: usize) -> bool {
    journal.len() < LEAST_BUFFER + BUFFER_PER_DETAIL * details
}

/// Why a journal is refused by 26.
#[derive(Clone, Copy, Debug, PartialEq, Eq)]
pub enum Cause {
    /// "isn't of this byte form"
    Form,
    /// "fits only a master of its count after"
    Count,
    /// "with places below that"
    Place,
    /// "and as many marks 00 as the count grew"
    Marks,
    /// "has places out of strictly rising order"
    Order,
    /// "would leave an unsound master"
    Unsound,
}

/// The rows that are left, one behind the other, or the first cause of 26 that holds.
pub fn taken(master: &[u8], rows: usize, journal: &[u8]) -> Result<Vec<u8>, Cause> {
    let journal = Journal::read(journal).ok_or(Cause::Form)?;
    if journal.after != rows as u64 {
        return Err(Cause::Count);
    }
    if journal.entries.iter().any(|e| e.place >= journal.after) {
        return Err(Cause::Place);
    }
    if journal.before.checked_add(journal.marks_new()) != Some(journal.after) {
        return Err(Cause::Marks);
    }
    let mut pairs = journal.entries.windows(2);
    if pairs.any(|pair| pair[0].place >= pair[1].place) {
        return Err(Cause::Order);
    }
    let left = journal.left(rows_of(master, rows));
    let bytes = left.concat();
    if refusal_04(&bytes, left.len()) {
        return Err(Cause::Unsound);
    }
    Ok(bytes)
}

/// Applies a batch and writes its journal: the counts, and the journal's length. Err holds the
/// refusal's number.
#[allow(clippy::too_many_arguments)]
pub fn apply_journaled(
    master: &mut [u8],
    rows: usize,
    batch: &[u8],
    list: &[u8],
    year: u64,
    verdicts: &mut [u64],
    rejects: &mut [u8],
    journal: &mut [u8],
) -> Result<(Counts, u64), u64> {
    let mut batch = admitted(master, rows, batch, list, year, verdicts, rejects)?;
    if refusal_25(journal, batch.details.len()) {
        return Err(25);
    }
    let entry = batch.cases.clone();
    let counts = carry_out(&mut batch, master, verdicts, rejects);
    let bytes = Journal::between(&entry, &batch.cases).bytes();
    journal[..bytes.len()].copy_from_slice(&bytes);
    Ok((counts, bytes.len() as u64))
}

/// Takes a batch back with its journal: the row count before it. Err holds the refusal's number.
pub fn take_back(master: &mut [u8], rows: usize, journal: &[u8]) -> Result<u64, u64> {
    if refusal_03(master, rows) {
        return Err(3);
    }
    if refusal_04(master, rows) {
        return Err(4);
    }
    let left = taken(master, rows, journal).map_err(|_| 26u64)?;
    // "bytes past them are kept"
    master[..left.len()].copy_from_slice(&left);
    Ok((left.len() / ROW) as u64)
}
