//! Cases of the first calls, any of them.

use agreement::case::Case;
use generator::rng::Rng;
use generator::text::shown;

use super::Run;
use crate::first::{contacts, control, details, exclusions, names, posting};
use crate::trial::Trial;

pub const CASE: Run = Run {
    name: "case",
    calls: &[
        "apply",
        "find",
        "reconcile",
        "to_ebcdic",
        "to_ascii",
        "contacts_update",
        "contacts_codes",
        "add_cents",
        "post",
    ],
    refusals: &[],
    groups: &[
        details::CODES,
        details::ROWS,
        control::CONTROL,
        names::NAMES,
        exclusions::EXCLUSION_SETS,
        contacts::RECORDS,
        contacts::ONE_FAULT,
        contacts::REFUSED,
        contacts::CODES,
        posting::POSTED,
        posting::LISTED,
        posting::REFUSED,
        posting::CENTS,
    ],
    share: 100,
    run,
};

fn run(rng: &mut Rng, trial: &mut Trial) {
    let case = Case::from(generator::case(rng.number()));
    let done = trial.only(&case);
    let (case, after) = (&case, &done.after);
    match (case.call().name, done.number) {
        ("apply", 0) => note_batch(trial, case, after),
        ("apply", 6 | 20 | 21) => control::note(trial, case),
        ("reconcile", 0) => {
            posting::note_reconciled(trial, case);
            exclusions::note_reconciled(trial, case);
        }
        ("contacts_update", 0) => contacts::note_update(trial, case),
        ("contacts_update", number) => contacts::note_refused(trial, case, number),
        ("contacts_codes", 0) => contacts::note_codes(trial, case, after),
        ("post", 0) => note_posting(trial, case, after),
        ("post", number) => posting::note_refused(trial, case, number),
        _ => {}
    }
}

fn note_batch(trial: &mut Trial, case: &Case, after: &Case) {
    details::note_codes(trial, case, after);
    details::note_rows(trial, case, after);
    names::note(trial, case, after);
    posting::note_batch(trial, case, after);
    exclusions::note_batch(trial, case, after);
    exclusions::note_kept(trial, case, after);
}

fn note_posting(trial: &mut Trial, case: &Case, after: &Case) {
    posting::note_file(trial, case, after);
    if let Some(key) = posting::uneven(case, after) {
        let words = format!("balances don't add up under {}", shown(&key));
        trial.hold(false, &words);
    }
}
