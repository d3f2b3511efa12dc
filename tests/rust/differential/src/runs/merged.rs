//! Two batches merged beside both of them one behind the other.

use agreement::case::{case, Value};
use generator::records::{batch, RECORD};
use generator::rng::Rng;
use generator::several::{two_parts, SeveralCase};

use super::several::{sent, Effect};
use super::Run;
use crate::trial::Trial;

pub const MERGED: Run = Run {
    name: "merged",
    calls: &[],
    refusals: &[9],
    groups: &[(
        "merged",
        &[
            "the same, as it must be",
            "the same, a key in both",
            "the same, a code 17",
            "the same, one without details",
            "a key with a B in both: the same",
            "a key with a B in both: another outcome",
            "the merged one refused, both carried out",
            "both refused and the merged one",
        ],
    )],
    share: 40,
    run,
};

/// The two batches of a case merged by the call, which must give the batch of all details.
fn merged(rng: &mut Rng, trial: &mut Trial, from: &SeveralCase, parts: &[Vec<u8>; 2]) -> Vec<u8> {
    let whole = batch(from.state, &from.details);
    let [first, second] = parts.clone();
    let values = vec![
        Value::Bytes(first),
        Value::Bytes(second),
        Value::Bytes(vec![7; whole.len() + rng.below(300)]),
        Value::Result(vec![7]),
    ];
    let done = trial.call(&case("merge", values));
    trial.hold(done.number == 0, "merging is refused");
    let single = done.after.bytes("out")[..whole.len()].to_vec();
    trial.hold(single == whole, "another batch than that of all details");
    let records = done.after.numbers("records")[0] as usize;
    trial.hold(records == whole.len() / RECORD, "records");
    single
}

fn run(rng: &mut Rng, trial: &mut Trial) {
    let case = two_parts(rng);
    let parts = [0, 1].map(|at: usize| batch(case.state, &case.parts[at]));
    let single = merged(rng, trial, &case, &parts);
    let single = sent(rng, trial, &case, &[single]);
    let both = sent(rng, trial, &case, &parts);
    let number = match (&single, &both) {
        (Err(number), _) | (_, Err(number)) => *number,
        _ => 0,
    };
    trial.answer(number);
    if single.is_err() {
        let apart = "the merged one refused, both carried out";
        trial.meet(apart, both.is_ok());
        trial.meet("both refused and the merged one", both.is_err());
    }
    if let (Ok(single), Ok(both)) = (single, both) {
        compare_effects(trial, &case, &single, &both);
    }
}

fn compare_effects(trial: &mut Trial, case: &SeveralCase, single: &Effect, both: &Effect) {
    let same = single == both;
    if !case.proviso() {
        trial.meet("a key with a B in both: the same", same);
        trial.meet("a key with a B in both: another outcome", !same);
        return;
    }
    trial.hold(single.rows == both.rows, "other rows when merged");
    let verdicts = single.verdicts == both.verdicts;
    trial.hold(verdicts, "other verdicts when merged");
    trial.meet("the same, as it must be", same);
    trial.meet("the same, a key in both", same && case.shared());
    trial.meet("the same, a code 17", same && single.has_17());
    let empty = case.parts[0].is_empty() != case.parts[1].is_empty();
    trial.meet("the same, one without details", same && empty);
}
