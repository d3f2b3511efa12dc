//! Exclusion fields that name ADM, and rows that have ADM by itself.

use agreement::case::Case;
use fantanolive::ERRORS;
use reference::row::{is_live, ROW};
use reference::text::EXCLUSIONS;

use super::{judged, rows};
use crate::runs::Group;
use crate::trial::Trial;

/// The bits of ADM, and of RET, VEN and SAL.
const ADM: u8 = 1;
const THREE: u8 = 0b1110;

pub const EXCLUSION_SETS: Group = (
    "exclusion sets",
    &[
        "A naming ADM without all three",
        "R naming ADM without all three",
        "A naming ADM and all three",
        "R naming ADM and all three",
        "all three named without ADM",
        "ADM twice",
        "ADM by itself, kept by a batch",
        "ADM by itself, reconciled",
    ],
);

/// The labels of an A and of an R that names ADM, without all three and with them.
const A_NAMES: [&str; 2] = [
    "A naming ADM without all three",
    "A naming ADM and all three",
];
const R_NAMES: [&str; 2] = [
    "R naming ADM without all three",
    "R naming ADM and all three",
];

/// The words of columns 188–227.
fn words(record: &[u8]) -> impl Iterator<Item = &[u8]> {
    let words = record[187..227].split(|&byte| byte == 0x40 || byte == 0x6B);
    words.filter(|word| !word.is_empty())
}

/// The bits of the words that a field names.
fn named(record: &[u8]) -> u8 {
    words(record).fold(0, |set, word| {
        let bit = EXCLUSIONS.iter().position(|name| name == word);
        bit.map_or(set, |bit| set | 1 << bit)
    })
}

fn by_itself(set: u8) -> bool {
    set & ADM != 0 && set & THREE != THREE
}

/// Counts the accepted A and R records of a batch.
pub fn note_batch(trial: &mut Trial, case: &Case, after: &Case) {
    for (record, verdict) in judged(case, after) {
        let labels = match record[72] {
            0xC1 => A_NAMES,
            0xD9 => R_NAMES,
            _ => continue,
        };
        if verdict & ERRORS == 0 {
            note_field(trial, record, labels);
        }
    }
}

/// Counts the rows that kept ADM by itself though a batch changed them.
pub fn note_kept(trial: &mut Trial, case: &Case, after: &Case) {
    let mut left = after.bytes("master").chunks_exact(ROW);
    for row in rows(case) {
        let same = left.find(|behind| behind[..12] == row[..12]);
        let kept = same.is_some_and(|behind| behind != row && behind[194] == row[194]);
        let label = "ADM by itself, kept by a batch";
        trial.meet_in(&EXCLUSION_SETS, label, kept && by_itself(row[194]));
    }
}

/// Counts a field that names ADM by the two labels of the record's kind, or all three.
fn note_field(trial: &mut Trial, record: &[u8], [without, with]: [&'static str; 2]) {
    let set = named(record);
    let (adm, three) = (set & ADM != 0, set & THREE == THREE);
    trial.meet_in(&EXCLUSION_SETS, without, adm && !three);
    trial.meet_in(&EXCLUSION_SETS, with, adm && three);
    let label = "all three named without ADM";
    trial.meet_in(&EXCLUSION_SETS, label, three && !adm);
    let times = words(record).filter(|&word| word == EXCLUSIONS[0]).count();
    trial.meet_in(&EXCLUSION_SETS, "ADM twice", times > 1);
}

/// Counts the REC records of rows that have ADM by itself.
pub fn note_reconciled(trial: &mut Trial, case: &Case) {
    for row in rows(case) {
        let shown = is_live(row) && row[..2] == *case.bytes("state");
        let label = "ADM by itself, reconciled";
        trial.meet_in(&EXCLUSION_SETS, label, shown && by_itself(row[194]));
    }
}
