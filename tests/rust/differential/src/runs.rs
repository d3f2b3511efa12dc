//! The runs: cases of a call, or of several calls one behind the other. Each has its own file, and its line in the list.

mod case;
mod journal;
mod many;
mod merge;
mod merged;
mod pages;
mod records_to;
mod several;

use generator::rng::{mix, Rng};

use crate::both::Both;
use crate::crash;
use crate::seen::Seen;
use crate::trial::Trial;

/// A title with the situations below it.
pub type Group = (&'static str, &'static [&'static str]);

pub struct Run {
    pub name: &'static str,
    /// The calls whose answers must all be met; none for a chain.
    pub calls: &'static [&'static str],
    /// What a whole chain must be refused by.
    pub refusals: &'static [u64],
    /// What else must be met.
    pub groups: &'static [Group],
    /// How many cases there are to a hundred that are asked for.
    pub share: u64,
    pub run: fn(&mut Rng, &mut Trial),
}

pub const RUNS: &[Run] = &[
    case::CASE,
    journal::APPLY_JOURNALED,
    journal::TAKE_BACK,
    journal::THERE_AND_BACK,
    many::FIND_MANY,
    merge::MERGE,
    merged::MERGED,
    pages::PAGES,
    records_to::RECORDS_TO,
    several::SEVERAL,
    several::TOTALS,
];

/// The run of a name.
pub fn named(name: &str) -> Option<&'static Run> {
    RUNS.iter().find(|run| run.name == name)
}

/// A number of a run's name, so that no two runs have the same cases.
fn mark(name: &str) -> u64 {
    let bytes = name.bytes().map(u64::from);
    bytes.fold(0, |mixed, byte| mix(mixed ^ byte))
}

impl Run {
    /// The seed of one of its cases.
    pub fn seed(&self, seed: u64, number: u64) -> u64 {
        mix(seed ^ mix(mark(self.name) ^ number))
    }

    /// One case: what differs, in words.
    pub fn one(&'static self, seed: u64, both: &mut Both, seen: &mut Seen) -> Vec<String> {
        crash::enter(self.name, seed);
        let mut trial = Trial {
            run: self,
            both,
            seen,
            differences: Vec::new(),
        };
        (self.run)(&mut Rng::new(seed), &mut trial);
        trial.differences
    }
}
