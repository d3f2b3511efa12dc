//! How often each answer and each situation was met.

use std::collections::BTreeMap;

use agreement::calls::{named, CALLS};

use crate::runs::Run;

#[derive(Default)]
pub struct Seen {
    pub cases: u64,
    pub failed: u64,
    /// By the name of a call or a chain and the number answered, 0 being carried out.
    answers: BTreeMap<(&'static str, u64), u64>,
    /// By the title of a group and the situation.
    met: BTreeMap<(&'static str, &'static str), u64>,
}

/// The answers that a run must bring about, by the names under which they are counted.
fn answers_of(run: &'static Run) -> Vec<(&'static str, &'static [u64])> {
    match run.calls {
        [] => vec![(run.name, run.refusals)],
        calls => {
            let places = calls.iter().filter_map(|call| named(call));
            places
                .map(|place| (CALLS[place].name, CALLS[place].refusals))
                .collect()
        }
    }
}

impl Seen {
    pub fn answer(&mut self, name: &'static str, number: u64) {
        *self.answers.entry((name, number)).or_default() += 1;
    }

    pub fn meet(&mut self, title: &'static str, situation: &'static str) {
        *self.met.entry((title, situation)).or_default() += 1;
    }

    fn answered(&self, name: &'static str, number: u64) -> u64 {
        self.answers.get(&(name, number)).copied().unwrap_or(0)
    }

    fn met(&self, title: &'static str, situation: &'static str) -> u64 {
        self.met.get(&(title, situation)).copied().unwrap_or(0)
    }

    pub fn print(&self, run: &'static Run) {
        for (name, refusals) in answers_of(run) {
            let refused = refusals.iter().map(|&number| {
                let count = self.answered(name, number);
                format!(", refusal {number} {count}")
            });
            let refused: String = refused.collect();
            println!("{name}: carried out {}{refused}", self.answered(name, 0));
        }
        for &(title, situations) in run.groups {
            println!("  {title}");
            for situation in situations {
                println!("    {situation:<44}{:>9}", self.met(title, situation));
            }
        }
    }

    /// Refusals and situations of a run that no case brought about.
    pub fn missing(&self, run: &'static Run) -> Vec<String> {
        let mut missing = Vec::new();
        for (name, refusals) in answers_of(run) {
            let numbers = [0].iter().chain(refusals);
            let never = numbers.filter(|&&number| self.answered(name, number) == 0);
            missing.extend(never.map(|number| format!("answer {number} of {name}")));
        }
        for &(title, situations) in run.groups {
            let never = situations.iter().filter(|one| self.met(title, one) == 0);
            missing.extend(never.map(|situation| format!("{title}: {situation}")));
        }
        missing
    }

    /// What was met, in words.
    pub fn situations(&self) -> Vec<String> {
        let met = self.met.keys();
        met.map(|(title, situation)| format!("{title}: {situation}"))
            .collect()
    }
}
