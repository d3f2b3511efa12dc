//! The later requests: each has its own file that measures its calls, and its line in the list.

use crate::journal;
use crate::many;
use crate::merge;
use crate::pages;
use crate::totals;

/// What a request measures, as lines to print.
type Measured = fn(repetitions: usize) -> Vec<String>;

const REQUESTS: &[Measured] = &[
    // A line each.
    journal::measured,
    many::measured,
    merge::measured,
    pages::measured,
    totals::measured,
];

pub fn measured(repetitions: usize) -> Vec<Vec<String>> {
    REQUESTS.iter().map(|one| one(repetitions)).collect()
}

pub fn print(measured: &[Vec<String>]) {
    for lines in measured {
        println!();
        for line in lines {
            println!("{line}");
        }
    }
}
