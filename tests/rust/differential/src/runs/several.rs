//! A file sent as several: the parts one behind the other beside the whole file; and the totals of a batch.

use agreement::case::{case, Case, Value};
use agreement::random::totalled;
use generator::bulk::SIXTEEN_BITS;
use generator::records::{batch, Record, RECORD};
use generator::rng::Rng;
use generator::several::{several_case, SeveralCase};
use reference::row::ROW;

use super::Run;
use crate::trial::Trial;

pub const SEVERAL: Run = Run {
    name: "several",
    calls: &[],
    refusals: &[9],
    groups: &[(
        "several",
        &[
            "the same, as it must be",
            "the same, a key in two parts",
            "the same, a name from a B",
            "the same, a code 17",
            "the same, a part without details",
            "the same, no parts and no details",
            "a key with a B in two parts: the same",
            "a key with a B in two parts: another outcome",
            "the whole refused, the parts carried out",
            "a part refused",
        ],
    )],
    share: 40,
    run,
};

pub const TOTALS: Run = Run {
    name: "totals",
    calls: &["totals"],
    refusals: &[],
    groups: &[(
        "totals",
        &[
            "as the control record says",
            "other than the control record says",
            "an amount above eleven digits",
            "records above 65,536",
        ],
    )],
    share: 20,
    run: run_totals,
};

/// A verdict: the number, and with 17 the four characters.
type Verdict = (u64, Option<Vec<u8>>);

/// What batches come to: the rows, and the verdicts in batch order.
#[derive(Default, PartialEq)]
pub struct Effect {
    pub rows: Vec<u8>,
    pub verdicts: Vec<Verdict>,
}

impl Effect {
    /// Whether a detail got 17.
    pub fn has_17(&self) -> bool {
        self.verdicts.iter().any(|(_, stored)| stored.is_some())
    }
}

/// The verdicts read off a list and a reject file.
fn verdicts_of(after: &Case, details: usize) -> Vec<Verdict> {
    let mut rejects = after.bytes("rejects").chunks_exact(RECORD);
    let list = after.numbers("verdicts").into_iter().take(details);
    list.map(|number| {
        let reject = (number != 0).then(|| rejects.next()).flatten();
        let stored = reject.filter(|_| number >> 17 & 1 == 1);
        (number, stored.map(|record| record[239..243].to_vec()))
    })
    .collect()
}

/// Applies batches one behind the other, each from the rows that the one before left in a buffer that may be longer; Err holds the
/// number of the first refusal.
pub fn sent(
    rng: &mut Rng,
    trial: &mut Trial,
    from: &SeveralCase,
    batches: &[Vec<u8>],
) -> Result<Effect, u64> {
    let (mut master, mut rows) = (from.master.clone(), from.rows as u64);
    let mut effect = Effect::default();
    for batch in batches {
        if rng.percent(20) {
            let more = ROW * rng.below(3);
            master.extend(rng.bytes(more));
        }
        let details = batch.len() / RECORD - 1;
        let values = vec![
            Value::Bytes(master),
            Value::Count(rows),
            Value::Bytes(batch.clone()),
            Value::Bytes(from.list.clone()),
            Value::Count(from.year),
            Value::Bytes(vec![7; 8 * (details + rng.below(2))]),
            Value::Bytes(vec![7; RECORD * (details + 1) + rng.below(9)]),
            Value::Result(vec![7; 5]),
        ];
        let mut done = trial.call(&case("apply", values));
        if done.number != 0 {
            return Err(done.number);
        }
        effect.verdicts.extend(verdicts_of(&done.after, details));
        rows = done.after.numbers("result")[4];
        master = std::mem::take(done.after.bytes_mut("master"));
    }
    effect.rows = master[..rows as usize * ROW].to_vec();
    Ok(effect)
}

fn run(rng: &mut Rng, trial: &mut Trial) {
    let case = several_case(rng);
    let whole = [batch(case.state, &case.details)];
    let cut = |part: &Vec<Record>| batch(case.state, part);
    let parts: Vec<Vec<u8>> = case.parts.iter().map(cut).collect();
    let single = sent(rng, trial, &case, &whole);
    let several = sent(rng, trial, &case, &parts);
    let number = match (&single, &several) {
        (Err(number), _) | (_, Err(number)) => *number,
        _ => 0,
    };
    trial.answer(number);
    trial.meet("a part refused", several.is_err());
    let apart = single.is_err() && several.is_ok();
    trial.meet("the whole refused, the parts carried out", apart);
    if let (Ok(single), Ok(several)) = (single, several) {
        compare_effects(trial, &case, &single, &several);
    }
}

fn compare_effects(trial: &mut Trial, case: &SeveralCase, single: &Effect, several: &Effect) {
    let same = single == several;
    if !case.proviso() {
        trial.meet("a key with a B in two parts: the same", same);
        trial.meet("a key with a B in two parts: another outcome", !same);
        return;
    }
    trial.hold(single.rows == several.rows, "other rows in parts");
    let verdicts = single.verdicts == several.verdicts;
    trial.hold(verdicts, "other verdicts in parts");
    trial.meet("the same, as it must be", same);
    trial.meet("the same, a key in two parts", same && case.shared());
    let renamed = case.details.iter().any(|record| record[72] == 0xC2);
    let parted = same && case.parts.len() > 1;
    trial.meet("the same, a name from a B", parted && renamed);
    trial.meet("the same, a code 17", parted && single.has_17());
    let empty = case.parts.iter().any(Vec::is_empty) && !case.details.is_empty();
    trial.meet("the same, a part without details", same && empty);
    let none = same && case.parts.is_empty();
    trial.meet("the same, no parts and no details", none);
}

fn run_totals(rng: &mut Rng, trial: &mut Trial) {
    let case = totalled(rng);
    let done = trial.only(&case);
    if done.number == 0 {
        meet_totals(trial, &done.after);
    }
}

fn meet_totals(trial: &mut Trial, after: &Case) {
    let totals = after.numbers("totals");
    let batch = after.bytes("batch");
    let control = generator::records::control([0; 2], [totals[0], totals[1], totals[2], totals[3]]);
    let said = batch[batch.len() - RECORD..][5..45] == control[5..45];
    trial.meet("as the control record says", said);
    trial.meet("other than the control record says", !said);
    let above = totals[2].max(totals[3]) > 99_999_999_999;
    trial.meet("an amount above eleven digits", above);
    let many = batch.len() > SIXTEEN_BITS * RECORD;
    trial.meet("records above 65,536", many);
}
