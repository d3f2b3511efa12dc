//! Cases for taking a batch back: batches with a journal buffer, and journals damaged in the ways
//! that refusal 26 names.

use crate::bulk;
use crate::cases::{apply_only, damage_length, damage_rows, giant, ApplyCase};
use crate::records::{control, totals, Record, RECORD};
use crate::rng::Rng;
use crate::rows::ROW;
use crate::text::{put_text, text};
use crate::wild;

#[derive(Clone, Debug, PartialEq, Eq)]
pub struct JournaledCase {
    pub apply: ApplyCase,
    pub journal: Vec<u8>,
    /// The sixth number of the result.
    pub length: u64,
}

#[derive(Clone, Debug, PartialEq, Eq)]
pub struct TakeBackCase {
    pub master: Vec<u8>,
    pub rows: usize,
    pub journal: Vec<u8>,
    pub rows_after: u64,
}

/// The journal buffer that so many details ask for.
pub const fn enough(details: usize) -> usize {
    12 + 205 * details
}

/// A case for apply with a journal buffer: just enough, more, or too short.
pub fn journaled_case(rng: &mut Rng) -> JournaledCase {
    let apply = match rng.below(400) {
        0 => giant(rng),
        1..=9 => wild_apply(rng),
        10..=29 => unchanging(rng),
        _ => apply_only(rng.number()),
    };
    let details = (apply.batch.len() / RECORD).saturating_sub(1);
    let enough = enough(details);
    let length = match rng.below(12) {
        0 => enough - 1,
        1 => rng.below(enough),
        2..=4 => enough + rng.below(300),
        _ => enough,
    };
    JournaledCase {
        apply,
        journal: rng.bytes(length),
        length: rng.number(),
    }
}

/// Records that are accepted and leave every row as it was: the code that it has, or another code
/// and then the old one.
fn unchanging(rng: &mut Rng) -> ApplyCase {
    let state = [0xD6, 0xC8];
    let rows = rng.between(1, 4);
    let mut details: Vec<Record> = Vec::new();
    for _ in 0..rng.between(1, 5) {
        let mut record = bulk::change(rng, state, 2 * rng.clone().below(rows), b"L");
        if rng.percent(30) {
            details.push(record);
        }
        put_text(&mut record, 3, "001");
        details.push(record);
    }
    let mut batch = details.concat();
    batch.extend_from_slice(&control(state, totals(&details)));
    ApplyCase {
        master: bulk::rows(state, rows, 2),
        rows,
        batch,
        list: text("001002"),
        year: 2007,
        verdicts: vec![7; details.len()],
        rejects: vec![7; RECORD * (details.len() + 1)],
        result: std::array::from_fn(|_| rng.number()),
    }
}

fn wild_apply(rng: &mut Rng) -> ApplyCase {
    ApplyCase {
        master: wild::bytes(rng),
        rows: wild::count(rng),
        batch: wild::bytes(rng),
        list: Vec::new(),
        year: 2007,
        verdicts: vec![7; 2],
        rejects: wild::bytes(rng),
        result: std::array::from_fn(|_| rng.number()),
    }
}

/// A journal with the master that its batch left: as they are, or one of them damaged.
pub fn take_back_case(
    rng: &mut Rng,
    master: Vec<u8>,
    rows: usize,
    journal: Vec<u8>,
) -> TakeBackCase {
    let mut case = TakeBackCase {
        master,
        rows,
        journal,
        rows_after: rng.number(),
    };
    match rng.below(20) {
        0..=3 => {}
        4 => damage_length(rng, &mut case.master, &mut case.rows),
        5 => damage_rows(rng, &mut case.master, case.rows),
        6 => change_row(rng, &mut case.master, case.rows),
        _ => damage_journal(rng, &mut case),
    }
    if rng.percent(5) {
        damage_journal(rng, &mut case);
    }
    case
}

/// Buffers of any length with any bytes.
pub fn wild_take_back(rng: &mut Rng) -> TakeBackCase {
    let journal = wild::bytes(rng);
    let empty = rng.percent(50);
    TakeBackCase {
        master: if empty { Vec::new() } else { wild::bytes(rng) },
        rows: if empty { 0 } else { wild::count(rng) },
        journal,
        rows_after: rng.number(),
    }
}

/// Another row that is sound as well: its case ID has no say.
fn change_row(rng: &mut Rng, master: &mut [u8], rows: usize) {
    if rows > 0 {
        let at = rng.below(rows) * ROW;
        rng.fill(&mut master[at + 15..at + 30]);
    }
}

/// A right journal, taken apart.
struct Parts {
    before: u64,
    after: u64,
    entries: Vec<(u64, Option<Vec<u8>>)>,
    /// The number that is written in an odd form, the count before being 0.
    odd: Option<(usize, Form)>,
    /// The entry with another mark.
    mark: Option<(usize, u8)>,
}

#[derive(Clone, Copy)]
enum Form {
    /// So many groups of 0 behind the others.
    Longer(usize),
    /// A number of so many groups.
    Huge(usize),
}

fn number(bytes: &mut &[u8]) -> u64 {
    let last = bytes.iter().position(|&byte| byte < 0x80).unwrap_or(0);
    let groups = &bytes[..=last];
    let value = groups
        .iter()
        .rev()
        .fold(0, |higher, &byte| higher << 7 | u64::from(byte & 0x7F));
    *bytes = &bytes[last + 1..];
    value
}

impl Parts {
    fn read(journal: &[u8]) -> Parts {
        let mut rest = journal;
        let (before, after) = (number(&mut rest), number(&mut rest));
        let mut entries = Vec::new();
        while !rest.is_empty() {
            let place = number(&mut rest);
            let length = if rest[0] == 0 { 0 } else { ROW };
            let row = (length > 0).then(|| rest[1..1 + ROW].to_vec());
            rest = &rest[1 + length..];
            entries.push((place, row));
        }
        Parts {
            before,
            after,
            entries,
            odd: None,
            mark: None,
        }
    }

    fn put_number(&self, bytes: &mut Vec<u8>, which: usize, number: u64) {
        let mut rest = number;
        let start = bytes.len();
        while rest >= 128 {
            bytes.push(rest as u8 | 0x80);
            rest >>= 7;
        }
        bytes.push(rest as u8);
        match self.odd {
            Some((odd, Form::Longer(groups))) if odd == which => {
                let last = bytes.len() - 1;
                bytes[last] |= 0x80;
                bytes.resize(bytes.len() + groups - 1, 0x80);
                bytes.push(0);
            }
            Some((odd, Form::Huge(groups))) if odd == which => {
                bytes.truncate(start);
                bytes.resize(start + groups - 1, 0x80);
                bytes.push(1);
            }
            _ => {}
        }
    }

    fn bytes(&self) -> Vec<u8> {
        let mut bytes = Vec::new();
        self.put_number(&mut bytes, 0, self.before);
        self.put_number(&mut bytes, 1, self.after);
        for (at, (place, row)) in self.entries.iter().enumerate() {
            self.put_number(&mut bytes, 2 + at, *place);
            let mark = u8::from(row.is_some());
            match self.mark {
                Some((other, mark)) if other == at => bytes.push(mark),
                _ => bytes.push(mark),
            }
            bytes.extend(row.iter().flatten());
        }
        bytes
    }
}

/// One change of a journal that was right.
fn damage_journal(rng: &mut Rng, case: &mut TakeBackCase) {
    let TakeBackCase {
        master,
        rows,
        journal,
        ..
    } = case;
    if journal.is_empty() {
        return;
    }
    let length = journal.len();
    match rng.below(10) {
        0 => journal[rng.below(length)] ^= 1 << rng.below(8),
        1 => journal[rng.below(length.min(8))] ^= 1 << rng.below(8),
        2 => journal.truncate(rng.below(length)),
        3 => {
            journal.pop();
        }
        4 => {
            let more = rng.between(1, 3);
            journal.extend(rng.bytes(more));
        }
        _ if is_right(journal) => {
            let mut parts = Parts::read(journal);
            let row = |place: u64| {
                let at = place as usize * ROW;
                master.get(at..at + ROW).map(<[u8]>::to_vec)
            };
            damage_parts(rng, &mut parts, *rows as u64, &row);
            *journal = parts.bytes();
        }
        _ => journal.push(0),
    }
}

/// It can be taken apart: it was damaged by nothing before.
fn is_right(journal: &[u8]) -> bool {
    let skip = |bytes: &[u8]| bytes.iter().position(|&byte| byte < 0x80).map(|at| at + 1);
    let mut rest = journal;
    for _ in 0..2 {
        let Some(at) = skip(rest).filter(|&at| at <= 9) else {
            return false;
        };
        rest = &rest[at..];
    }
    while !rest.is_empty() {
        let at = skip(rest).filter(|&at| at <= 9).unwrap_or(rest.len());
        let needed = match rest.get(at) {
            Some(0) => at + 1,
            Some(1) => at + 1 + ROW,
            _ => return false,
        };
        if rest.len() < needed {
            return false;
        }
        rest = &rest[needed..];
    }
    true
}

/// Numbers, places, marks and old rows; some of the changes leave a journal that fits.
fn damage_parts(rng: &mut Rng, parts: &mut Parts, rows: u64, row: &dyn Fn(u64) -> Option<Vec<u8>>) {
    let count = parts.entries.len();
    match rng.below(16) {
        0 | 1 => parts.odd = Some((rng.below(count + 2), Form::Longer(rng.between(1, 3)))),
        2 => {
            parts.odd = Some((
                rng.below(count + 2),
                Form::Huge(rng.pick(&[4, 5, 9, 10, 11, 30])),
            ))
        }
        3 => parts.before = parts.before.wrapping_add(rng.pick(&[1, u64::MAX])),
        4 => parts.after = parts.after.wrapping_add(rng.pick(&[1, u64::MAX])),
        5 => add_entry(rng, parts, rows, row),
        _ if count == 0 => add_entry(rng, parts, rows, row),
        6 | 7 if count >= 2 => {
            // A place equal to the one before, or two entries turned round.
            let at = rng.between(1, count - 1);
            match rng.below(3) {
                0 => parts.entries.swap(at - 1, at),
                1 => parts.entries[at].0 = parts.entries[at - 1].0,
                _ => {
                    let places = (parts.entries[at - 1].0, parts.entries[at].0);
                    (parts.entries[at].0, parts.entries[at - 1].0) = places;
                }
            }
        }
        8 => {
            // A place at or beyond the count, or below the one before.
            let at = rng.below(count);
            parts.entries[at].0 = rng.pick(&[rows, rows, rows + 1, 0, u64::MAX]);
        }
        9 => {
            let at = rng.below(count);
            let gone = parts.entries.remove(at);
            if gone.1.is_none() && rng.percent(50) {
                parts.before += 1;
            }
        }
        10 => parts.mark = Some((rng.below(count), rng.pick(&[0, 1, 2, 0x80, 0xFF]))),
        11 | 12 => turn_mark(rng, parts, row),
        _ => damage_old(rng, parts, row),
    }
}

/// An entry more, mostly at a place that has none.
fn add_entry(rng: &mut Rng, parts: &mut Parts, rows: u64, row: &dyn Fn(u64) -> Option<Vec<u8>>) {
    let place = rng.below(rows as usize + 1) as u64;
    let taken = parts.entries.iter().any(|entry| entry.0 == place);
    if taken && rng.percent(70) {
        return;
    }
    let at = parts.entries.partition_point(|entry| entry.0 < place);
    let old = if rng.percent(60) { row(place) } else { None };
    if old.is_none() && rng.percent(70) {
        parts.before = parts.before.saturating_sub(1);
    }
    parts.entries.insert(at, (place, old));
}

/// 00 in place of 01, or 01 and a row in place of 00; the count before mostly goes with it.
fn turn_mark(rng: &mut Rng, parts: &mut Parts, row: &dyn Fn(u64) -> Option<Vec<u8>>) {
    let at = rng.below(parts.entries.len());
    let (place, old) = &mut parts.entries[at];
    let fits = rng.percent(60);
    *old = match old {
        Some(_) => {
            parts.before = parts.before.saturating_sub(u64::from(fits));
            None
        }
        None => {
            parts.before += u64::from(fits);
            row(*place)
        }
    };
}

/// An old row that is unsound, of another key, or another sound row.
fn damage_old(rng: &mut Rng, parts: &mut Parts, row: &dyn Fn(u64) -> Option<Vec<u8>>) {
    let mut changed: Vec<_> = parts.entries.iter_mut().collect();
    changed.retain(|entry| entry.1.is_some());
    if changed.is_empty() {
        return;
    }
    let at = rng.below(changed.len());
    let (place, Some(old)) = &mut *changed[at] else {
        return;
    };
    match rng.below(5) {
        0 | 1 => damage_rows(rng, old, 1),
        2 => old[10] = 0xF0 + rng.below(10) as u8,
        3 => rng.fill(&mut old[90..186]),
        _ => {
            let near = place.wrapping_add(rng.pick(&[1, u64::MAX]));
            if let Some(other) = row(near) {
                old[..12].copy_from_slice(&other[..12]);
            }
        }
    }
}
