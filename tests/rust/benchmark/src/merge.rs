//! Two batches into one, beside one memcpy of the merged batch.

use std::cell::RefCell;

use fantanolive::raw;
use generator::bulk;
use generator::records::{batch, Record, RECORD};
use generator::rng::Rng;

use crate::beside::{head, line, times};
use crate::input::{MANY, STATE};
use crate::once::measured_call;

/// Two batches that have so many details together.
fn two(details: usize) -> [Vec<u8>; 2] {
    let mut rng = Rng::new(29);
    let details: Vec<Record> = (0..details)
        .map(|at| bulk::change(&mut rng, STATE, 2 * at, b"MCBLRZST"))
        .collect();
    let (one, two) = details.split_at(details.len() / 2);
    [batch(STATE, one), batch(STATE, two)]
}

fn library([first, second]: &[Vec<u8>; 2], out: &mut [u8]) {
    let mut records = 0;
    let answer = raw::merge(first, second, out, &mut records);
    assert_eq!(answer, 0, "merge was refused");
}

/// One call for its instructions.
pub fn once() {
    let inputs = two(MANY);
    let mut out = vec![0; (MANY + 1) * RECORD];
    measured_call(&mut || library(&inputs, &mut out));
}

pub fn measured(repetitions: usize) -> Vec<String> {
    let mut lines = vec![head("two batches into one", "the result")];
    for count in [1000, MANY] {
        let inputs = two(count);
        let length = (count + 1) * RECORD;
        let (one, two) = (RefCell::new(vec![0; length]), RefCell::new(vec![1; length]));
        let times = times(
            repetitions,
            &vec![0x5A; length],
            || library(&inputs, &mut one.borrow_mut()),
            || {
                let done = reference::merge(&inputs[0], &inputs[1], &mut two.borrow_mut());
                assert!(done.is_ok());
            },
        );
        assert!(one == two, "merge differs");
        lines.push(line(&format!("{count} details together"), &times));
    }
    lines
}
