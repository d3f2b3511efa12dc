//! Journals in parts: read, changed and written again.

use generator::rng::Rng;
use generator::rows::ROW;

use crate::case::Case;
use crate::room::row_count;
use crate::scene::put_number;

/// An entry: its place, its mark, and the old row of a changed one.
#[derive(Clone)]
struct Entry {
    place: u64,
    mark: u8,
    old: Vec<u8>,
}

/// A journal as far as it can be read, and what stands behind.
struct Journal {
    before: u64,
    after: u64,
    entries: Vec<Entry>,
    rest: Vec<u8>,
}

impl Journal {
    fn read(bytes: &[u8]) -> Option<Journal> {
        let mut rest = bytes;
        let (before, after) = (take_number(&mut rest)?, take_number(&mut rest)?);
        let mut entries = Vec::new();
        while let Some(entry) = take_entry(&mut rest) {
            entries.push(entry);
        }
        Some(Journal {
            before,
            after,
            entries,
            rest: rest.to_vec(),
        })
    }

    fn bytes(&self) -> Vec<u8> {
        let mut bytes = Vec::new();
        put_number(&mut bytes, self.before);
        put_number(&mut bytes, self.after);
        for entry in &self.entries {
            put_number(&mut bytes, entry.place);
            bytes.push(entry.mark);
            bytes.extend(&entry.old);
        }
        bytes.extend(&self.rest);
        bytes
    }

    /// A changed row's entry twice, or two entries in the other order: what is counted stays right.
    fn put_twice(&mut self, rng: &mut Rng) {
        let is_changed = |one: &Entry| one.mark == 1;
        let (count, changed) = (self.entries.len(), self.entries.iter().position(is_changed));
        match changed {
            Some(at) if rng.percent(60) => self.entries.insert(at, self.entries[at].clone()),
            _ if count > 1 => self.entries.swap(count - 2, count - 1),
            _ => {}
        }
    }

    fn new_ones(&self) -> u64 {
        self.entries.iter().filter(|one| one.mark == 0).count() as u64
    }
}

/// Takes an entry off the front.
fn take_entry(bytes: &mut &[u8]) -> Option<Entry> {
    let mut rest = *bytes;
    let place = take_number(&mut rest)?;
    let (&mark, behind) = rest.split_first()?;
    let (old, behind) = match mark {
        0 => behind.split_at(0),
        1 => behind.split_at_checked(ROW)?,
        _ => return None,
    };
    *bytes = behind;
    let old = old.to_vec();
    Some(Entry { place, mark, old })
}

fn take_number(bytes: &mut &[u8]) -> Option<u64> {
    let last = bytes
        .iter()
        .position(|&byte| byte < 0x80)
        .filter(|&last| last < 9)?;
    let (groups, rest) = bytes.split_at(last + 1);
    *bytes = rest;
    let value = groups
        .iter()
        .rev()
        .fold(0, |higher, &byte| higher << 7 | u64::from(byte & 0x7F));
    Some(value)
}

/// Takes a row's place out of a journal; what stands behind the last entry that can be read stays.
pub fn forget_place(bytes: &mut Vec<u8>, place: u64) {
    let Some(mut journal) = Journal::read(bytes) else {
        return;
    };
    let entry = journal.entries.iter().find(|one| one.place == place);
    let was_new = entry.is_some_and(|one| one.mark == 0);
    journal.before -= u64::from(!was_new && journal.before > 0);
    journal.after = journal.after.saturating_sub(1);
    journal.entries.retain(|one| one.place != place);
    for entry in &mut journal.entries {
        entry.place -= u64::from(entry.place > place);
    }
    *bytes = journal.bytes();
}

/// A journal of another master, or with a number or mark that is right in its low bits alone.
pub fn other_numbers(rng: &mut Rng, case: &mut Case) {
    let rows = row_count(case) as u64;
    let Some(mut journal) = Journal::read(case.bytes("journal")) else {
        return;
    };
    let high = 1 << rng.pick(&[7, 8, 14, 16, 21, 28, 31, 32, 32, 48, 56, 62]);
    let least = rng.between(1, 2) as u64;
    match rng.below(10) {
        0 | 1 => {
            // as of a master of fewer rows
            journal.after = rows.saturating_sub(least);
            let after = journal.after;
            journal.entries.retain(|one| one.place < after);
            journal.before = after - journal.new_ones();
        }
        2 => {
            journal.before += least;
            journal.after += least;
        }
        3 => journal.before += high,
        4 => journal.after += high,
        5 => {
            journal.before += high;
            journal.after += high;
        }
        6 => {
            let last = journal.entries.last_mut();
            last.into_iter().for_each(|one| one.place += high);
        }
        7 | 8 => journal.put_twice(rng),
        _ => {
            let mark = rng.pick(&[2, 0x40, 0x80, 0xF0, 0xFF]);
            let new = journal.entries.iter_mut().find(|one| one.mark == 0);
            new.into_iter().for_each(|one| one.mark = mark);
        }
    }
    *case.bytes_mut("journal") = journal.bytes();
}
