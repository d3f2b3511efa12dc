//! Two batches merged.

use agreement::case::Case;
use generator::bulk::SIXTEEN_BITS;
use generator::merge::merge_case;
use generator::rng::Rng;
use reference::batch::{parts, RECORD};

use super::Run;
use crate::trial::Trial;

pub const MERGE: Run = Run {
    name: "merge",
    calls: &["merge"],
    refusals: &[],
    groups: &[(
        "merge",
        &[
            "both with details",
            "one without details",
            "neither with details",
            "an amount of eleven digits",
            "details above 65,536",
            "refused for the first, the second right",
            "refused for the second",
            "refused for the first, the second faulty too",
            "32, states",
            "32, an amount",
        ],
    )],
    share: 30,
    run,
};

fn run(rng: &mut Rng, trial: &mut Trial) {
    let case = Case::from(merge_case(rng));
    let done = trial.only(&case);
    match done.number {
        0 => meet_merged(trial, &done.after),
        32 => trial.meet(cause_of_32(&case), true),
        33 => {}
        _ => meet_faults(trial, &case),
    }
}

/// What a merged batch is made of.
fn meet_merged(trial: &mut Trial, after: &Case) {
    let [first, second] = ["first", "second"].map(|name| {
        let batch = after.bytes(name);
        &batch[..batch.len() - RECORD]
    });
    let (one, two) = (first.len() / RECORD, second.len() / RECORD);
    trial.meet("both with details", one > 0 && two > 0);
    trial.meet("one without details", (one == 0) != (two == 0));
    trial.meet("neither with details", one == 0 && two == 0);
    trial.meet("details above 65,536", one + two > SIXTEEN_BITS);
    let records = after.numbers("records")[0] as usize;
    match parts(&after.bytes("out")[..records * RECORD]) {
        Ok((details, control)) => {
            let joined = [first, second].concat();
            trial.hold(details.concat() == joined, "the details joined");
            let long = control[23] != 0xF0 || control[34] != 0xF0;
            trial.meet("an amount of eleven digits", long);
        }
        Err(_) => trial.hold(false, "the merged batch is refused"),
    }
}

fn meet_faults(trial: &mut Trial, case: &Case) {
    let [first, second] = ["first", "second"].map(|name| parts(case.bytes(name)).is_err());
    let label = match (first, second) {
        (true, false) => "refused for the first, the second right",
        (true, true) => "refused for the first, the second faulty too",
        _ => "refused for the second",
    };
    trial.meet(label, true);
}

fn cause_of_32(case: &Case) -> &'static str {
    let [first, second] = ["first", "second"].map(|name| {
        let batch = case.bytes(name);
        batch[batch.len() - RECORD..][..2].to_vec()
    });
    match first == second {
        true => "32, an amount",
        false => "32, states",
    }
}
