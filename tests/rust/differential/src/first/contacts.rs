//! What files did to contact tables, told from the reference's outcome.

use std::collections::BTreeSet;

use agreement::case::Case;
use reference::contacts::{is_faulty, CONTACT, FAULTS};

use crate::runs::Group;
use crate::trial::Trial;

pub const RECORDS: Group = (
    "contact records",
    &[
        "added",
        "in place of the table's",
        "in place of the file's",
        "faulty",
        "faulty, of the table's key",
        "faulty, behind a good one of its key",
        "faulty, before a good one of its key",
    ],
);
pub const REFUSED: Group = (
    "contact files refused",
    &[
        "18, file length",
        "18, table length",
        "18, table count",
        "18, faulty record",
        "18, order",
        "19, space",
        "19, list",
    ],
);
pub const CODES: Group = (
    "calls for the codes of a state",
    &["written", "none", "000 left out"],
);
/// Faults that make a record faulty alone.
pub const ONE_FAULT: Group = ("the one fault of a contact record", &fault_names());

const fn fault_names() -> [&'static str; FAULTS.len()] {
    let mut names = [""; FAULTS.len()];
    let mut at = 0;
    while at < names.len() {
        names[at] = FAULTS[at].0;
        at += 1;
    }
    names
}

/// The records of a case's table.
fn table(case: &Case) -> impl Iterator<Item = &[u8]> {
    let count = case.count("count") as usize;
    case.bytes("table").chunks_exact(CONTACT).take(count)
}

/// Counts the records of a file that was read.
pub fn note_update(trial: &mut Trial, case: &Case) {
    let table: BTreeSet<&[u8]> = table(case).map(|record| &record[..5]).collect();
    let records = || case.bytes("file").chunks_exact(CONTACT);
    let good: BTreeSet<&[u8]> = records()
        .filter(|record| !is_faulty(record))
        .map(|record| &record[..5])
        .collect();
    let mut read: BTreeSet<&[u8]> = BTreeSet::new();
    for record in records() {
        let key = &record[..5];
        let mut add = |label, met| trial.meet_in(&RECORDS, label, met);
        if is_faulty(record) {
            add("faulty", true);
            add("faulty, of the table's key", table.contains(key));
            add("faulty, behind a good one of its key", read.contains(key));
            let later = good.contains(key) && !read.contains(key);
            add("faulty, before a good one of its key", later);
            note_fault(trial, record);
        } else if !read.insert(key) {
            add("in place of the file's", true);
        } else if table.contains(key) {
            add("in place of the table's", true);
        } else {
            add("added", true);
        }
    }
}

/// Counts a file that was refused, by the first cause.
pub fn note_refused(trial: &mut Trial, case: &Case, number: u64) {
    let (file, space) = (case.bytes("file").len(), case.bytes("table").len());
    let causes = [
        !file.is_multiple_of(CONTACT),
        !space.is_multiple_of(CONTACT),
        case.count("count") > (space / CONTACT) as u64,
        table(case).any(is_faulty),
        number == 18,
        case.numbers("faulty").len() >= file / CONTACT,
        true,
    ];
    if let Some(cause) = causes.iter().position(|&holds| holds) {
        trial.meet_in(&REFUSED, REFUSED.1[cause], true);
    }
}

fn note_fault(trial: &mut Trial, record: &[u8]) {
    let mut found = FAULTS.iter().filter(|(_, holds)| holds(record));
    if let (Some((name, _)), None) = (found.next(), found.next()) {
        trial.meet_in(&ONE_FAULT, name, true);
    }
}

/// Counts a call for codes that was carried out.
pub fn note_codes(trial: &mut Trial, case: &Case, after: &Case) {
    let codes = after.numbers("codes")[0];
    trial.meet_in(&CODES, "written", codes > 0);
    trial.meet_in(&CODES, "none", codes == 0);
    let own = [case.bytes("state"), &[0xF0; 3]].concat();
    let state = table(case).any(|record| record[..5] == own);
    trial.meet_in(&CODES, "000 left out", state && codes > 0);
}
