//! Case pages.

use std::collections::BTreeSet;

use agreement::case::Case;
use generator::pages::{enough, pages_case};
use generator::rng::Rng;
use reference::pages::{line_of, LINES, WIDTH};
use reference::row::is_live;

use super::Run;
use crate::first::rows;
use crate::trial::Trial;

pub const PAGES: Run = Run {
    name: "pages",
    calls: &["pages"],
    refusals: &[],
    groups: &[(
        "pages",
        &[
            "no live rows",
            "no live rows, an empty buffer",
            "1 live row",
            "57 live rows",
            "58 live rows",
            "59 live rows",
            "116 live rows",
            "117 live rows",
            "deleted rows between live ones",
            "rows of two states",
            "a set of none",
            "a set of all eight",
            "31, a byte short",
            "31, an empty buffer",
        ],
    )],
    share: 30,
    run,
};

fn live_rows(case: &Case) -> Vec<&[u8]> {
    rows(case).filter(|row| is_live(row)).collect()
}

fn run(rng: &mut Rng, trial: &mut Trial) {
    let case = Case::from(pages_case(rng));
    let done = trial.only(&case);
    if done.number == 0 {
        meet_rows(trial, &done.after);
        hold_lines(trial, &done.after);
    }
    if done.number == 31 {
        let room = case.bytes("out").len();
        let short = room + 1 == enough(live_rows(&case).len());
        trial.meet("31, a byte short", short);
        trial.meet("31, an empty buffer", room == 0);
    }
}

/// What was printed.
fn meet_rows(trial: &mut Trial, after: &Case) {
    let live = live_rows(after);
    let situation = match live.len() {
        0 => Some("no live rows"),
        1 => Some("1 live row"),
        57 => Some("57 live rows"),
        58 => Some("58 live rows"),
        59 => Some("59 live rows"),
        116 => Some("116 live rows"),
        117 => Some("117 live rows"),
        _ => None,
    };
    if let Some(situation) = situation {
        trial.meet(situation, true);
    }
    let empty = live.is_empty() && after.bytes("out").is_empty();
    trial.meet("no live rows, an empty buffer", empty);
    let deleted = !live.is_empty() && live.len() < after.count("rows") as usize;
    trial.meet("deleted rows between live ones", deleted);
    let states: BTreeSet<&[u8]> = live.iter().map(|row| &row[..2]).collect();
    trial.meet("rows of two states", states.len() > 1);
    trial.meet("a set of none", live.iter().any(|row| row[194] == 0));
    let all = live.iter().any(|row| row[194] == 0xFF);
    trial.meet("a set of all eight", all);
}

/// The lines joined are the live rows'.
fn hold_lines(trial: &mut Trial, after: &Case) {
    let live = live_rows(after);
    let pages = after.bytes("out")[..enough(live.len())].chunks((LINES + 2) * WIDTH);
    let count = after.numbers("pages")[0];
    trial.hold(pages.len() as u64 == count, "the number of pages");
    let lines: Vec<&[u8]> = pages
        .flat_map(|page| page[WIDTH..page.len() - WIDTH].chunks(WIDTH))
        .collect();
    let same = lines
        .iter()
        .copied()
        .eq(live.iter().map(|row| line_of(row)));
    trial.hold(same, "the lines joined aren't the live rows'");
}
