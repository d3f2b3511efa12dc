//! Two batches into one at the limit.

use fantanolive::raw;
use generator::bulk;
use generator::records::{control, RECORD};
use sparse::Mapping;

use crate::batches::adds;
use crate::{answer, MOST, STATE};

const HALF: usize = MOST / 2;

/// 33 comes where 32 doesn't.
pub fn refusals() {
    let [none, one, half, more, most] = [0, 1, HALF, HALF + 1, MOST].map(adds);
    for (first, second, expected) in [
        (&half, &more, 33),
        (&more, &more, 32),
        (&most, &none, 33),
        (&most, &one, 32),
        (&one, &most, 32),
    ] {
        let lengths = (first.len(), second.len());
        assert_eq!(
            raw::merge(first, second, &mut [], &mut 0),
            expected,
            "{lengths:?}"
        );
        assert_eq!(answer(reference::merge(first, second, &mut [])), expected);
    }
}

/// An output of which nothing is written yet; its details will be alike.
fn output() -> Mapping {
    Mapping::closed(&[0xEE; RECORD], MOST, &[0xEE; RECORD + 1])
}

pub fn carried_out() {
    let (one, two, mut records) = (adds(HALF), adds(HALF + 1), 0);
    let (mut given, mut expected) = (output(), output());
    assert_eq!(raw::merge(&one, &two, &mut given, &mut records), 0);
    assert_eq!(reference::merge(&one, &two, &mut expected), Ok(records));
    assert_eq!(records, MOST as u64 + 1);
    assert!(given[..] == expected[..]);
    let (details, last) = given.split_at(MOST * RECORD);
    let record = bulk::add(STATE, 2);
    assert!(details.chunks_exact(RECORD).all(|detail| detail == record));
    let totals = [MOST as u64, 0, 500 * MOST as u64, 0];
    assert_eq!(last[..RECORD], control(STATE, totals));
    assert_eq!(last[RECORD..], [0xEE]);
}
