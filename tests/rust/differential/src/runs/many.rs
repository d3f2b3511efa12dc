//! Many keys looked up together, each beside a single look-up.

use agreement::case::Case;
use fantanolive::raw;
use generator::many::many_case;
use generator::rng::Rng;
use reference::many::{KEY, NONE};
use reference::row::{is_live, key_sound};

use super::Run;
use crate::first::rows;
use crate::trial::Trial;

pub const FIND_MANY: Run = Run {
    name: "find_many",
    calls: &["find_many"],
    refusals: &[],
    groups: &[(
        "find_many",
        &[
            "no rows",
            "no keys",
            "a key of a row",
            "a key of a deleted row",
            "a key below all rows",
            "a key between two rows",
            "a key above all rows",
            "as many comparisons as rows and keys but one",
            "27, length",
            "27, unsound key",
            "27, the same key twice",
            "27, order",
        ],
    )],
    share: 30,
    run,
};

fn run(rng: &mut Rng, trial: &mut Trial) {
    let case = Case::from(many_case(rng));
    let done = trial.only(&case);
    match done.number {
        0 => meet_answers(trial, &done.after),
        27 => trial.meet(cause_of_27(case.bytes("keys")), true),
        _ => {}
    }
}

/// Each answer beside a single look-up.
fn meet_answers(trial: &mut Trial, after: &Case) {
    let keys: Vec<&[u8]> = after.bytes("keys").chunks_exact(KEY).collect();
    let count = after.count("rows");
    trial.meet("no rows", count == 0);
    trial.meet("no keys", keys.is_empty());
    for (&key, place) in keys.iter().zip(after.numbers("places")) {
        let (expected, place) = match place == u64::from(NONE) {
            true => ((15, 7), None),
            false => ((0, place), Some(place)),
        };
        let same = found(after, key) == expected;
        trial.hold(same, "another answer than a single look-up");
        meet_key(trial, after, key, place);
    }
    let (most, comparisons) = (count + keys.len() as u64, after.numbers("comparisons")[0]);
    trial.hold(comparisons <= most, "more comparisons than rows and keys");
    let nearly = !keys.is_empty() && comparisons + 1 == most;
    trial.meet("as many comparisons as rows and keys but one", nearly);
}

/// The answer of the library to a single look-up.
fn found(after: &Case, key: &[u8]) -> (u64, u64) {
    let mut place = 7;
    let rows = after.count("rows") as usize;
    let answer = raw::find(after.bytes("master"), rows, key, &mut place);
    (answer, place)
}

fn meet_key(trial: &mut Trial, after: &Case, key: &[u8], place: Option<u64>) {
    if let Some(place) = place {
        let live = rows(after).nth(place as usize).is_some_and(is_live);
        trial.meet("a key of a row", true);
        trial.meet("a key of a deleted row", !live);
        return;
    }
    let below = rows(after).filter(|row| &row[..KEY] < key).count() as u64;
    let (none, all) = (below == 0, below == after.count("rows"));
    trial.meet("a key below all rows", none && !all);
    trial.meet("a key between two rows", !none && !all);
    trial.meet("a key above all rows", all && !none);
}

fn cause_of_27(keys: &[u8]) -> &'static str {
    let list: Vec<&[u8]> = keys.chunks_exact(KEY).collect();
    if !keys.len().is_multiple_of(KEY) {
        "27, length"
    } else if list.iter().any(|key| !key_sound(key)) {
        "27, unsound key"
    } else if list.windows(2).any(|pair| pair[0] > pair[1]) {
        "27, order"
    } else {
        "27, the same key twice"
    }
}
