//! Which batches of a log were taken back, and by which runs.

use crate::log::history::{Outcome, TAKE_BACK};
use crate::log::line::Run;

/// The take-backs that were carried out, from the last run of a log back.
pub struct TakeBacks<'a> {
    runs: &'a [Run],
    done: Vec<Done>,
}

struct Done {
    /// The number of the run, and that of the batch whose journal it took, where the log has one.
    number: usize,
    batch: Option<usize>,
    /// Whether a batch was found that it may have taken back.
    is_used: bool,
}

/// Whether every row is where it was before a run: rows come and go with batches alone, and are counted.
fn keeps_places(run: &Run) -> bool {
    let count = |name: &str| run.counts.iter().find(|(other, _)| other == name);
    let rows = [count("rows_before"), count("rows")].map(|count| count.map(|(_, rows)| rows));
    match &*run.command {
        "post" => true,
        "apply" | TAKE_BACK => rows[0].is_some() && rows[0] == rows[1],
        _ => false,
    }
}

impl<'a> TakeBacks<'a> {
    pub fn of(runs: &'a [Run]) -> TakeBacks<'a> {
        let done = Vec::new();
        TakeBacks { runs, done }
    }

    /// Adds a take-back, which was carried out.
    pub fn add(&mut self, number: usize) -> Outcome {
        let batch = self.batch_of(number);
        self.done.push(Done {
            number,
            batch,
            is_used: false,
        });
        Outcome::CarriedOut
    }

    /// The last run before a take-back that wrote its journal.
    fn batch_of(&self, number: usize) -> Option<usize> {
        let journal = &self.runs[number].inputs.first()?.sha256;
        let wrote = |run: &Run| {
            let written = run.journal.as_ref();
            written.is_some_and(|written| written.sha256 == *journal)
        };
        self.runs[..number].iter().rposition(wrote)
    }

    /// What became of another run that was carried out.
    pub fn outcome(&mut self, number: usize) -> Outcome {
        let is_its = |done: &&mut Done| done.batch == Some(number);
        if let Some(done) = self.done.iter_mut().find(is_its) {
            done.is_used = true;
            let by = done.number;
            return match self.is_out(number, by) && !self.comes_back(number, by) {
                true => Outcome::TakenBack,
                false => Outcome::Unknown,
            };
        }
        // of one whose journal the log doesn't know, what it left says which run it took back
        let is_open = |done: &&mut Done| done.batch.is_none() && !done.is_used;
        let before = &self.runs[number].before;
        match self.done.iter_mut().rev().find(is_open) {
            Some(done) => {
                done.is_used = true;
                match self.runs[done.number].after == *before {
                    true => Outcome::TakenBack,
                    false => Outcome::CarriedOut,
                }
            }
            None => Outcome::CarriedOut,
        }
    }

    /// Whether a take-back took its batch out whole: it left what was there before the batch, or no row changed its place between
    /// the two, by which a journal names rows.
    fn is_out(&self, batch: usize, by: usize) -> bool {
        let is_exact = self.runs[by].after == self.runs[batch].before;
        is_exact || self.runs[batch + 1..by].iter().all(keeps_places)
    }

    /// Whether a batch that was taken back may be in the master again: a later take-back put rows there that were written down
    /// between the two, or that no run of the log wrote down.
    fn comes_back(&self, batch: usize, by: usize) -> bool {
        let later = self.done.iter().filter(|done| done.number > by);
        let mut batches = later.map(|done| done.batch);
        batches.any(|other| other.is_none_or(|other| (batch + 1..by).contains(&other)))
    }
}
