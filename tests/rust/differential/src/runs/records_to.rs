//! The records that lead to a wanted case, on both sides; and a batch of them, which must lead there.

use agreement::case::{case, Case, Value};
use generator::records::{batch, Record};
use generator::records_to::records_to_case;
use generator::rng::Rng;
use reference::batch::RECORD;
use reference::row::{row_sound, ROW};

use super::Run;
use crate::trial::Trial;

pub const RECORDS_TO: Run = Run {
    name: "records_to",
    calls: &["records_to"],
    refusals: &[],
    groups: &[(
        "records_to",
        &[
            "rows equal",
            "rows equal, deleted",
            "C",
            "L",
            "R",
            "M",
            "all four",
            "M for the cents alone",
            "M to nothing",
            "an unlisted code kept",
            "ADM alone kept",
            "4, the row",
            "4, the wanted row",
            "4, a length",
            "29, a deleted row",
            "29, a byte of none alone",
            "29, a blank case ID alone",
            "29, an unlisted code alone",
            "29, ADM without all three alone",
            "29, cents alone",
        ],
    )],
    share: 60,
    run,
};

fn run(rng: &mut Rng, trial: &mut Trial) {
    let case = Case::from(records_to_case(rng));
    let done = trial.only(&case);
    match done.number {
        0 => {
            meet_records(trial, &done.after);
            hold_lead(trial, &done.after);
        }
        4 => meet_unsound(trial, &case),
        29 => meet_causes(trial, &case),
        _ => {}
    }
}

fn records_of(after: &Case) -> Vec<Record> {
    let count = after.numbers("records")[0] as usize;
    let records = after.bytes("out").chunks_exact(RECORD).take(count);
    records.filter_map(|one| one.try_into().ok()).collect()
}

fn listed(case: &Case, code: &[u8]) -> bool {
    code == [0xF0; 3] || case.bytes("locals").chunks(3).any(|one| one == code)
}

fn meet_records(trial: &mut Trial, after: &Case) {
    let (row, wanted) = (after.bytes("row"), after.bytes("wanted"));
    let records = records_of(after);
    trial.meet("rows equal", row == wanted && row[195] == 0x40);
    trial.meet("rows equal, deleted", row == wanted && row[195] != 0x40);
    for record in &records {
        let kind = match record[72] {
            0xC3 => "C",
            0xD3 => "L",
            0xD9 => "R",
            _ => "M",
        };
        trial.meet(kind, true);
        let cents = kind == "M" && row[65..73] == wanted[65..73];
        trial.meet("M for the cents alone", cents);
        trial.meet("M to nothing", kind == "M" && wanted[195] != 0x40);
    }
    trial.meet("all four", records.len() == 4);
    let changed = !records.is_empty();
    let unlisted = row[12..15] == wanted[12..15] && !listed(after, &row[12..15]);
    trial.meet("an unlisted code kept", changed && unlisted);
    let alone = row[194] == wanted[194] && row[194] & 0b1111 == 1;
    trial.meet("ADM alone kept", changed && alone);
}

/// A batch of the records alone, applied to a master of the row, leaves the wanted row.
fn hold_lead(trial: &mut Trial, after: &Case) {
    let details = records_of(after);
    let row = after.bytes("row");
    let values = vec![
        Value::Bytes(row.to_vec()),
        Value::Count(1),
        Value::Bytes(batch([row[0], row[1]], &details)),
        Value::Bytes(after.bytes("locals").to_vec()),
        Value::Count(2007),
        Value::Bytes(vec![9; 8 * details.len()]),
        Value::Bytes(vec![9; RECORD * (details.len() + 1)]),
        Value::Result(vec![9; 5]),
    ];
    let sent = trial.call(&case("apply", values));
    let accepted = sent
        .after
        .numbers("verdicts")
        .iter()
        .all(|&codes| codes == 0);
    let leads = accepted && sent.after.bytes("master") == after.bytes("wanted");
    trial.hold(
        sent.number == 0 && leads,
        "a batch of the records doesn't lead there",
    );
}

fn meet_unsound(trial: &mut Trial, case: &Case) {
    let (row, wanted) = (case.bytes("row"), case.bytes("wanted"));
    let odd = row.len() != ROW || wanted.len() != ROW;
    trial.meet("4, a length", odd);
    if !odd {
        let row = !row_sound(row);
        trial.meet("4, the row", row);
        trial.meet("4, the wanted row", !row);
    }
}

/// Why no records lead there, where it is one cause alone.
fn meet_causes(trial: &mut Trial, case: &Case) {
    let (row, wanted) = (case.bytes("row"), case.bytes("wanted"));
    if row[195] != 0x40 {
        trial.meet("29, a deleted row", true);
        return;
    }
    let differ = |first: usize, last: usize| row[first - 1..last] != wanted[first - 1..last];
    let set = wanted[194];
    let causes = [
        (
            "29, a byte of none alone",
            differ(1, 12) || differ(31, 65) || differ(74, 194),
        ),
        (
            "29, a blank case ID alone",
            differ(16, 30) && wanted[15..30] == [0x40; 15],
        ),
        (
            "29, an unlisted code alone",
            differ(13, 15) && !listed(case, &wanted[12..15]),
        ),
        (
            "29, ADM without all three alone",
            differ(195, 195) && set & 1 == 1 && set & 0b1111 != 0b1111,
        ),
        (
            "29, cents alone",
            (differ(66, 73) || differ(197, 198)) && wanted[196..198] != [0xF0; 2],
        ),
    ];
    let mut held = causes.iter().filter(|(_, holds)| *holds);
    if let (Some((cause, _)), None) = (held.next(), held.next()) {
        trial.meet(cause, true);
    }
}
