//! Engines that have document 02 only up to a request: a case is put into the form that they know, what the library left is put
//! into it too, and a case on which a later request decides is left out.

use crate::calls::{named_16_bit, CALLS};
use crate::case::{number_bytes, numbers_of, Case, Outcome, Value};

const ROW: usize = 200;
const RECORD: usize = 245;
/// The limit before request 14.
const MOST: usize = 65_535;

/// What an engine up to a request knows.
#[derive(Clone, Copy, Debug)]
pub struct Older {
    pub request: u64,
}

/// A case as the other engine gets it.
pub struct Put {
    /// As the library gets it.
    pub ours: Case,
    pub theirs: Case,
}

fn rows_in(case: &Case) -> usize {
    let room = case.bytes("master").len() / ROW;
    case.count("rows").min(room as u64) as usize
}

/// Whether a field of exclusions names ADM.
fn names_adm(case: &Case) -> bool {
    let adm = generator::text::text("ADM");
    let named = |record: &[u8]| record[187..227].windows(3).any(|word| word == adm);
    case.bytes("batch").chunks_exact(RECORD).any(named)
}

/// Whether a key has a B record and one of a type whose name is judged.
fn names_matter(case: &Case) -> bool {
    let key = |record: &[u8]| [&record[..2], &record[5..14], &record[73..74]].concat();
    let records = || case.bytes("batch").chunks_exact(RECORD);
    let renamed: Vec<Vec<u8>> = records().filter(|one| one[72] == 0xC2).map(key).collect();
    let mut others = records().filter(|one| one[72] != 0xC1 && one[72] != 0xC2);
    others.any(|one| renamed.contains(&key(one)))
}

impl Older {
    /// The case for both engines; none where a later request decides on it.
    pub fn put(&self, case: &Case) -> Option<Put> {
        let mut ours = case.clone();
        if self.request >= 14 {
            return Some(Put {
                theirs: ours.clone(),
                ours,
            });
        }
        let is_large =
            |value: &Value| matches!(value, Value::Bytes(bytes) if bytes.len() > MOST * 132);
        if ours.values.iter().any(is_large) {
            return None;
        }
        let has_batch = ours.has("batch") && ours.has("master");
        if has_batch
            && (self.request < 7 && names_adm(&ours) || self.request < 3 && names_matter(&ours))
        {
            return None;
        }
        if self.request < 6 && ours.has("master") {
            without_cents(&mut ours);
        }
        let theirs = self.as_theirs(&ours);
        Some(Put { ours, theirs })
    }

    fn as_theirs(&self, ours: &Case) -> Case {
        let mut theirs = ours.clone();
        if self.request < 6 && ours.has("master") {
            let rows = rows_in(ours);
            blank_cents(theirs.bytes_mut("master"), rows);
        }
        if ours.call().name == "apply_journaled" {
            let shorter = ours.bytes("journal").len().saturating_sub(details(ours));
            theirs.bytes_mut("journal").truncate(shorter);
        }
        if let Some(call) = named_16_bit(ours.call().name) {
            theirs.call = call;
            for (at, argument) in CALLS[call].arguments.iter().enumerate() {
                if let (2, Value::Bytes(bytes)) = (argument.width(), &mut theirs.values[at]) {
                    *bytes = narrowed(bytes);
                }
            }
        }
        theirs
    }

    /// What the other engine is to leave, from what the library left.
    pub fn wanted(&self, put: &Put, ours: Outcome) -> Outcome {
        let mut wanted = ours;
        if self.request >= 14 {
            return wanted;
        }
        if self.request < 5 && [20, 21].contains(&wanted.answer) {
            wanted.answer = 6;
        }
        let rows = match wanted.answer == 0 && put.ours.has("batch") && put.ours.has("result") {
            true => wanted.numbers(&put.ours, "result")[4] as usize,
            false => 0,
        };
        let name = put.ours.call().name;
        for (at, argument) in put.ours.call().arguments.iter().enumerate() {
            let Some(bytes) = &mut wanted.left[at] else {
                continue;
            };
            match argument.name() {
                "master" if self.request < 6 => blank_cents(bytes, rows),
                "journal" => bytes.truncate(put.theirs.bytes("journal").len()),
                "out" if name == "pages" => five_digits(bytes),
                "lines" | "faulty" => *bytes = narrowed(bytes),
                _ => {}
            }
        }
        // what is the same in the older form isn't changed
        for (left, value) in wanted.left.iter_mut().zip(&put.theirs.values) {
            if left.as_ref() == Some(&crate::case::bytes_of(value)) {
                *left = None;
            }
        }
        wanted
    }
}

fn details(case: &Case) -> usize {
    (case.bytes("batch").len() / RECORD).saturating_sub(1)
}

/// A list of 32-bit numbers as one of 16-bit numbers.
fn narrowed(bytes: &[u8]) -> Vec<u8> {
    let numbers: Vec<u64> = numbers_of(bytes, 4)
        .iter()
        .map(|number| number % 65_536)
        .collect();
    number_bytes(&numbers, 2)
}

/// Gives rows no cents, so that both forms of a row say the same.
fn without_cents(case: &mut Case) {
    let rows = rows_in(case);
    for row in case.bytes_mut("master").chunks_exact_mut(ROW).take(rows) {
        let had_cents = row[196..198] != [0xF0; 2];
        row[196..198].fill(0xF0);
        if had_cents && row[65..73] == [0xF0; 8] && row[195] == 0x40 {
            row[195] = 0xC4;
        }
    }
}

fn blank_cents(master: &mut [u8], rows: usize) {
    for row in master.chunks_exact_mut(ROW).take(rows) {
        if row[196..198] == [0xF0; 2] {
            row[196..198].fill(0x40);
        }
    }
}

/// Page numbers of five digits.
fn five_digits(pages: &mut [u8]) {
    let cases = generator::text::text("CASES ");
    for line in pages
        .chunks_exact_mut(132)
        .filter(|line| line[..6] == cases[..])
    {
        line.copy_within(7..12, 6);
        line[11] = 0x40;
    }
}
