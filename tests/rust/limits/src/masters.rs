//! Refusal 3 of every call that takes a master.

use fantanolive::raw;
use generator::journal::enough;
use reference::row::ROW;
use sparse::{all, Mapping};

use crate::{answer, MOST};

type Call = fn(&mut [u8], usize) -> u64;

/// By the library and by the reference; what comes behind 4 doesn't matter.
const CALLS: [(&str, Call, Call); 9] = [
    (
        "apply",
        |master, rows| raw::apply(master, rows, &[], &[], 2007, &mut [], &mut [], &mut [0; 5]),
        |master, rows| {
            answer(reference::apply(
                master,
                rows,
                &[],
                &[],
                2007,
                &mut [],
                &mut [],
            ))
        },
    ),
    (
        "apply_journaled",
        |master, rows| {
            let mut journal = [0; enough(0)];
            let out = (&mut [], &mut [], &mut journal, &mut [0; 6]);
            raw::apply_journaled(master, rows, &[], &[], 2007, out.0, out.1, out.2, out.3)
        },
        |master, rows| {
            let done = reference::apply_journaled(
                master,
                rows,
                &[],
                &[],
                2007,
                &mut [],
                &mut [],
                &mut [0; enough(0)],
            );
            answer(done)
        },
    ),
    (
        "find",
        |master, rows| raw::find(master, rows, &[], &mut 0),
        |master, rows| answer(reference::find(master, rows, &[])),
    ),
    (
        "find_many",
        |master, rows| raw::find_many(master, rows, &[], &mut [], &mut 0),
        |master, rows| answer(reference::find_many(master, rows, &[], &mut [])),
    ),
    (
        "reconcile",
        |master, rows| raw::reconcile(master, rows, &[], &[], &mut [], &mut 0),
        |master, rows| answer(reference::reconcile(master, rows, &[], &[], &mut [])),
    ),
    ("add_cents", raw::add_cents, |master, rows| {
        answer(reference::add_cents(master, rows))
    }),
    (
        "post",
        |master, rows| raw::post(master, rows, &[], &mut [], &mut 0),
        |master, rows| answer(reference::post(master, rows, &[], &mut [])),
    ),
    (
        "take_back",
        |master, rows| raw::take_back(master, rows, &[], &mut 0),
        |master, rows| answer(reference::take_back(master, rows, &[])),
    ),
    (
        "pages",
        |master, rows| raw::pages(master, rows, &mut [], &mut 0),
        |master, rows| answer(reference::pages(master, rows, &mut [])),
    ),
];

/// Zeros are no sound rows: 4 comes where 3 doesn't.
pub fn rows() {
    let mut master = Mapping::zeros((MOST + 1) * ROW);
    for (name, library, reference) in CALLS {
        for (length, rows, expected) in [
            ((MOST + 1) * ROW, MOST + 1, 3),
            ((MOST + 1) * ROW, MOST, 4),
            (MOST * ROW, MOST, 4),
            (MOST * ROW, MOST + 1, 3),
            (MOST * ROW - ROW, MOST, 3),
            (MOST * ROW + 1, MOST, 3),
        ] {
            let answers = [
                library(&mut master[..length], rows),
                reference(&mut master[..length], rows),
            ];
            assert_eq!(
                answers, [expected; 2],
                "{name}: {rows} rows in {length} bytes"
            );
        }
    }
    assert!(all(&master, 0));
}
