//! Many keys looked up together, beside one memcpy of the master.

use std::cell::RefCell;

use fantanolive::raw;
use generator::bulk;

use crate::beside::{head, line, times};
use crate::input::{MANY, STATE};
use crate::once::measured_call;

/// Keys of rows, spread over all of them.
fn keys(count: usize) -> Vec<u8> {
    let places = (0..count).map(|at| at * MANY / count);
    places
        .flat_map(|place| bulk::key(STATE, 2 * place))
        .collect()
}

fn library(master: &[u8], keys: &[u8], places: &mut [u32]) -> u64 {
    let mut comparisons = 0;
    let answer = raw::find_many(master, MANY, keys, places, &mut comparisons);
    assert_eq!(answer, 0, "find_many was refused");
    comparisons
}

/// One call for its instructions.
pub fn once(count: usize) {
    let (master, keys) = (bulk::rows(STATE, MANY, 2), keys(count));
    let mut places = vec![0; count];
    measured_call(&mut || {
        library(&master, &keys, &mut places);
    });
}

pub fn measured(repetitions: usize) -> Vec<String> {
    let master = bulk::rows(STATE, MANY, 2);
    let mut lines = vec![head("65535 rows", "the master")];
    for count in [10, 1000, MANY] {
        let keys = keys(count);
        let (one, two) = (RefCell::new(vec![0; count]), RefCell::new(vec![1; count]));
        let times = times(
            repetitions,
            &master,
            || {
                library(&master, &keys, &mut one.borrow_mut());
            },
            || {
                let done = reference::find_many(&master, MANY, &keys, &mut two.borrow_mut());
                assert!(done.is_ok());
            },
        );
        assert!(one == two, "find_many differs");
        lines.push(line(&format!("{count} keys together"), &times));
    }
    lines
}
