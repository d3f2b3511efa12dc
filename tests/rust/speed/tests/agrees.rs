//! The speed engine against the reference, every byte, on random cases.

use generator::rng::mix;
use generator::{apply_only, case, ApplyCase, Case, FindCase, ReconcileCase};

fn agrees(case: &ApplyCase) -> bool {
    let (mut one, mut two) = (case.clone(), case.clone());
    let speed = speed::apply(
        &mut one.master,
        one.rows,
        &one.batch,
        &one.list,
        one.year,
        &mut one.verdicts,
        &mut one.rejects,
    );
    let reference = reference::apply(
        &mut two.master,
        two.rows,
        &two.batch,
        &two.list,
        two.year,
        &mut two.verdicts,
        &mut two.rejects,
    )
    .map(|counts| {
        [
            counts.accepted,
            counts.rejected,
            counts.warned,
            counts.neither,
            counts.rows,
        ]
    });
    speed == reference && one == two
}

fn finds(case: &FindCase) -> bool {
    let FindCase {
        master, rows, key, ..
    } = case;
    speed::find(master, *rows, key) == reference::find(master, *rows, key)
}

fn reconciles(case: &ReconcileCase) -> bool {
    let (mut one, mut two) = (case.out.clone(), case.out.clone());
    let ReconcileCase {
        master,
        rows,
        state,
        date,
        ..
    } = case;
    let speed = speed::reconcile(master, *rows, state, date, &mut one);
    let reference = reference::reconcile(master, *rows, state, date, &mut two);
    speed == reference && one == two
}

#[test]
fn small_cases() {
    for number in 0..20_000 {
        assert!(agrees(&apply_only(mix(number))), "case {}", mix(number));
    }
}

#[test]
fn all_cases() {
    for number in 0..10_000 {
        let seed = mix(1 << 40 | number);
        let same = match case(seed) {
            Case::Apply(case) => agrees(&case),
            Case::Find(case) => finds(&case),
            Case::Reconcile(case) => reconciles(&case),
            _ => true,
        };
        assert!(same, "case {seed}");
    }
}
