//! Case pages of a master, beside one memcpy of it.

use std::cell::RefCell;

use fantanolive::raw;
use generator::bulk;
use generator::pages::enough;

use crate::beside::{head, line, times};
use crate::input::{MANY, STATE};
use crate::once::measured_call;

fn library(master: &[u8], out: &mut [u8]) {
    let mut pages = 0;
    let answer = raw::pages(master, master.len() / 200, out, &mut pages);
    assert_eq!(answer, 0, "pages was refused");
}

/// One call for its instructions.
pub fn once() {
    let master = bulk::rows(STATE, MANY, 2);
    let mut out = vec![0; enough(MANY)];
    measured_call(&mut || library(&master, &mut out));
}

pub fn measured(repetitions: usize) -> Vec<String> {
    let mut lines = vec![head("case pages", "the master")];
    for rows in [1000, MANY] {
        let master = bulk::rows(STATE, rows, 2);
        let length = enough(rows);
        let (one, two) = (RefCell::new(vec![0; length]), RefCell::new(vec![1; length]));
        let times = times(
            repetitions,
            &master,
            || library(&master, &mut one.borrow_mut()),
            || {
                let done = reference::pages(&master, rows, &mut two.borrow_mut());
                assert!(done.is_ok());
            },
        );
        assert!(one == two, "pages differs");
        lines.push(line(&format!("{rows} rows"), &times));
    }
    lines
}
