//! Refusals of a batch that has as many records as there can be.

use fantanolive::raw;
use generator::bulk;
use generator::journal::enough;
use generator::records::{control, RECORD};
use reference::row::ROW;
use sparse::{all, Mapping};

use crate::{answer, MOST, STATE};

/// So many A records of one key, with their control record.
pub fn adds(count: usize) -> Mapping {
    let record = bulk::add(STATE, 2);
    let totals = [count as u64, 0, 500 * count as u64, 0];
    Mapping::closed(&record, count, &control(STATE, totals))
}

/// The refusal of a batch by the library; the reference gives the same.
fn applied(
    master: &mut [u8],
    rows: usize,
    batch: &[u8],
    verdicts: &mut [u64],
    rejects: &mut [u8],
) -> u64 {
    let expected = reference::apply(master, rows, batch, &[], 2007, verdicts, rejects);
    let mut result = [77; 5];
    let given = raw::apply(
        master,
        rows,
        batch,
        &[],
        2007,
        verdicts,
        rejects,
        &mut result,
    );
    assert_eq!((given, result), (answer(expected), [77; 5]));
    given
}

/// Zeros are no control record: 6 comes where 5 doesn't.
pub fn records() {
    let batch = Mapping::zeros((MOST + 2) * RECORD);
    for (records, expected) in [(MOST + 2, 5), (MOST + 1, 6), (MOST, 6)] {
        let batch = &batch[..records * RECORD];
        assert_eq!(applied(&mut [], 0, batch, &mut [], &mut []), expected);
        assert_eq!(raw::merge(batch, &[], &mut [], &mut 0), expected);
        assert_eq!(answer(reference::merge(batch, &[], &mut [])), expected);
        // As the second of two, the first being right.
        assert_eq!(raw::merge(&adds(0), batch, &mut [], &mut 0), expected);
        assert_eq!(answer(reference::merge(&adds(0), batch, &mut [])), expected);
    }
    let mut totals = [77; 4];
    assert_eq!((raw::totals(&batch, &mut totals), totals), (5, [77; 4]));
    assert_eq!(answer(reference::totals(&batch)), 5);
}

/// Repeated keys count each: 10 comes where 9 doesn't.
pub fn rows_and_adds() {
    let mut master = Mapping::zeros((MOST + 1) * ROW);
    master[..ROW].copy_from_slice(&bulk::rows(STATE, 1, 2));
    master[ROW..2 * ROW].copy_from_slice(&bulk::rows(STATE, 2, 2)[ROW..]);
    let batch = adds(MOST);
    // The key of the A records is that of the second row.
    for (length, rows, expected) in [
        (MOST + 1, 0, 10),
        (MOST + 1, 1, 9),
        (MOST + 1, 2, 10),
        (MOST, 0, 10),
        (MOST - 1, 0, 9),
    ] {
        let answer = applied(&mut master[..length * ROW], rows, &batch, &mut [], &mut []);
        assert_eq!(answer, expected, "{rows} rows, {length} places");
    }
}

/// 10 and 11, and 25 behind them.
pub fn buffers() {
    let (batch, mut master) = (adds(MOST), Mapping::zeros(MOST * ROW));
    let (mut verdicts, mut rejects) = (vec![0; MOST], Mapping::zeros((MOST + 1) * RECORD));
    let room = rejects.len();
    assert_eq!(
        applied(&mut master, 0, &batch, &mut verdicts[1..], &mut rejects),
        10
    );
    assert_eq!(
        applied(
            &mut master,
            0,
            &batch,
            &mut verdicts,
            &mut rejects[..room - 1]
        ),
        11
    );
    assert_eq!(enough(MOST), 12 + 205 * MOST);
    let mut journal = Mapping::zeros(enough(MOST) - 1);
    let expected = reference::apply_journaled(
        &mut master,
        0,
        &batch,
        &[],
        2007,
        &mut verdicts,
        &mut rejects,
        &mut journal,
    );
    let mut result = [77; 6];
    let given = raw::apply_journaled(
        &mut master,
        0,
        &batch,
        &[],
        2007,
        &mut verdicts,
        &mut rejects,
        &mut journal,
        &mut result,
    );
    assert_eq!((given, result, answer(expected)), (25, [77; 6], 25));
    assert!(verdicts.iter().all(|&verdict| verdict == 0));
    for buffer in [&master, &rejects, &journal] {
        assert!(all(buffer, 0));
    }
}
