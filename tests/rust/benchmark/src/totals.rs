//! The totals of a batch, beside one memcpy of it.

use std::cell::Cell;

use fantanolive::raw;
use generator::bulk;
use generator::records::{batch, Record};
use generator::rng::Rng;

use crate::beside::{head, line, times};
use crate::input::{MANY, STATE};
use crate::once::measured_call;

fn input(details: usize) -> Vec<u8> {
    let mut rng = Rng::new(31);
    let details: Vec<Record> = (0..details)
        .map(|at| bulk::change(&mut rng, STATE, 2 * at, b"MCBLRZST"))
        .collect();
    batch(STATE, &details)
}

fn library(batch: &[u8]) -> [u64; 4] {
    let mut totals = [0; 4];
    let answer = raw::totals(batch, &mut totals);
    assert_eq!(answer, 0, "totals was refused");
    totals
}

/// One call for its instructions.
pub fn once() {
    let batch = input(MANY);
    measured_call(&mut || {
        library(&batch);
    });
}

pub fn measured(repetitions: usize) -> Vec<String> {
    let mut lines = vec![head("totals", "the batch")];
    for count in [1000, MANY] {
        let batch = input(count);
        let (one, two) = (Cell::new([0; 4]), Cell::new(Err(0)));
        let times = times(
            repetitions,
            &batch,
            || one.set(library(&batch)),
            || two.set(reference::totals(&batch)),
        );
        assert!(two.get() == Ok(one.get()), "totals differs");
        lines.push(line(&format!("{count} details"), &times));
    }
    lines
}
