//! The codes of a batch's details, and what became of the rows.

use std::collections::HashSet;

use agreement::case::Case;
use reference::row::ROW;

use super::{judged, rows};
use crate::runs::Group;
use crate::trial::Trial;

pub const CODES: Group = (
    "details",
    &[
        "code 01",
        "code 02",
        "code 03",
        "code 04",
        "code 05",
        "code 06",
        "code 07",
        "code 08",
        "code 09",
        "code 10",
        "code 11",
        "code 12",
        "code 13",
        "code 14",
        "code 15",
        "code 16",
        "code 17",
        "code 18",
        "code 51",
        "code 52",
        "no code",
        "more than six codes",
    ],
);
pub const ROWS: Group = (
    "rows of a batch",
    &[
        "made live",
        "deleted",
        "with a new name",
        "added",
        "fewer than A records ask for",
        "room left behind them",
    ],
);

/// The code of each bit of a verdict, by its place in the group.
fn label(code: u32) -> Option<&'static str> {
    match code {
        1..=18 => Some(CODES.1[code as usize - 1]),
        51 => Some("code 51"),
        52 => Some("code 52"),
        _ => None,
    }
}

/// Counts the codes of a batch that was carried out.
pub fn note_codes(trial: &mut Trial, case: &Case, after: &Case) {
    for (_, verdict) in judged(case, after) {
        trial.meet_in(&CODES, "no code", verdict == 0);
        trial.meet_in(&CODES, "more than six codes", verdict.count_ones() > 6);
        for code in fantanolive::codes(verdict) {
            match label(code) {
                Some(label) => trial.meet_in(&CODES, label, true),
                None => trial.hold(false, "a verdict with another code"),
            }
        }
    }
}

/// Counts what became of the rows.
pub fn note_rows(trial: &mut Trial, case: &Case, after: &Case) {
    let count = after.numbers("result")[4] as usize;
    let mut entry = rows(case).peekable();
    for row in after.bytes("master").chunks_exact(ROW).take(count) {
        let Some(old) = entry.next_if(|old| old[..12] == row[..12]) else {
            trial.meet_in(&ROWS, "added", true);
            continue;
        };
        let turned = old[195] != row[195];
        trial.meet_in(&ROWS, "made live", turned && row[195] == 0x40);
        trial.meet_in(&ROWS, "deleted", turned && row[195] != 0x40);
        trial.meet_in(&ROWS, "with a new name", old[30..34] != row[30..34]);
    }
    let keys: HashSet<&[u8]> = rows(case).map(|row| &row[..12]).collect();
    let new = case.bytes("batch").chunks_exact(245).filter(|record| {
        let key = [&record[..2], &record[5..14], &record[73..74]].concat();
        record[72] == 0xC1 && !keys.contains(&key[..])
    });
    let added = count - keys.len();
    let fewer = new.count() > added;
    trial.meet_in(&ROWS, "fewer than A records ask for", fewer);
    let room = count < case.bytes("master").len() / ROW;
    trial.meet_in(&ROWS, "room left behind them", room);
}
