//! What a case asks of the buffers that are written: how long each must be at least.

use generator::records::RECORD;
use generator::rows::ROW;

use crate::case::Case;
use crate::scene::pages_length;

const CONTACT: usize = 220;

/// The rows of a master that are rows.
pub fn row_count(case: &Case) -> usize {
    let most = case.bytes("master").len() / ROW;
    (case.count("rows").min(most as u64)) as usize
}

/// The details of a batch.
fn details(case: &Case, name: &str) -> usize {
    (case.bytes(name).len() / RECORD).saturating_sub(1)
}

/// How many A records of a batch have the key of no row.
pub fn new_rows(case: &Case) -> usize {
    let rows = case.bytes("master").chunks(ROW).take(row_count(case));
    let keys: Vec<&[u8]> = rows.map(|row| &row[..12]).collect();
    let is_new = |record: &&[u8]| {
        let key = [&record[..2], &record[5..14], &record[73..74]].concat();
        record[72] == 0xC1 && !keys.contains(&&key[..])
    };
    let records = case.bytes("batch").chunks_exact(RECORD);
    let records = records.take(details(case, "batch"));
    records.filter(is_new).count()
}

/// The contact records of a table that are records.
fn contact_count(case: &Case) -> usize {
    let most = case.bytes("table").len() / CONTACT;
    (case.count("count").min(most as u64)) as usize
}

/// How many records of a contact file have a key that the table lacks.
pub fn lacking(case: &Case) -> usize {
    let table = case.bytes("table").chunks_exact(CONTACT);
    let keys: Vec<&[u8]> = table
        .take(contact_count(case))
        .map(|one| &one[..5])
        .collect();
    let file = case.bytes("file").chunks_exact(CONTACT);
    file.filter(|record| !keys.contains(&&record[..5])).count()
}

/// How many codes of a state a table has.
fn codes(case: &Case) -> usize {
    let state = case.bytes("state");
    let table = case.bytes("table").chunks_exact(CONTACT);
    let own = table
        .take(contact_count(case))
        .filter(|one| one[..2] == *state && one[2..5] != [0xF0; 3]);
    own.count()
}

/// How many live rows a master has, of one state or of all.
fn live(case: &Case, state: Option<&[u8]>) -> usize {
    let rows = case.bytes("master").chunks_exact(ROW).take(row_count(case));
    let is_own = |row: &&[u8]| state.is_none_or(|state| row[..2] == *state);
    rows.filter(|row| row[195] == 0x40).filter(is_own).count()
}

/// The bytes that each buffer must have, by name.
pub fn asked(case: &Case) -> Vec<(&'static str, usize)> {
    match case.call().name {
        "apply" | "apply_journaled" => {
            let details = details(case, "batch");
            let mut asked = vec![
                ("master", ROW * (row_count(case) + new_rows(case))),
                ("verdicts", 8 * details),
                ("rejects", RECORD * (details + 1)),
            ];
            asked.extend(
                case.has("journal")
                    .then_some(("journal", 12 + 205 * details)),
            );
            asked
        }
        "merge" => {
            let both = details(case, "first") + details(case, "second");
            vec![("out", RECORD * (both + 1))]
        }
        "post" => vec![(
            "lines",
            4 * (case.bytes("file").len() / 240).saturating_sub(1),
        )],
        "find_many" => vec![("places", 4 * (case.bytes("keys").len() / 12))],
        "reconcile" => {
            let listed = live(case, Some(case.bytes("state")));
            vec![("out", RECORD * (listed + 1))]
        }
        "pages" => vec![("out", pages_length(live(case, None)))],
        "contacts_update" => vec![
            ("faulty", 4 * (case.bytes("file").len() / CONTACT)),
            ("table", CONTACT * (contact_count(case) + lacking(case))),
        ],
        "contacts_codes" => vec![("out", 3 * codes(case))],
        _ => Vec::new(),
    }
}

/// A smaller case with as much room to spare, or as much too little, as the one that it was made from.
pub fn fitted(before: &Case, after: &Case) -> Case {
    let mut fitted = after.clone();
    for ((name, more), (_, less)) in asked(before).into_iter().zip(asked(after)) {
        let length = (before.bytes(name).len() + less).saturating_sub(more);
        fitted.bytes_mut(name).resize(length, 0);
    }
    fitted
}
