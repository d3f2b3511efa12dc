//! A case in its course: one call, or several one behind the other.

use agreement::case::Case;

use crate::both::{Both, Done};
use crate::runs::{Group, Run};
use crate::seen::Seen;

pub struct Trial<'a> {
    pub run: &'static Run,
    pub both: &'a mut Both,
    pub seen: &'a mut Seen,
    /// What differs, or doesn't hold, in words; empty if nothing does.
    pub differences: Vec<String>,
}

impl Trial<'_> {
    /// One call of several on both engines.
    pub fn call(&mut self, case: &Case) -> Done {
        let mut done = self.both.run(case);
        let difference = done.difference.take();
        let named = difference.map(|words| format!("{}: {words}", case.call().name));
        self.differences.extend(named);
        done
    }

    /// The one call that the case is about; its answer is counted.
    pub fn only(&mut self, case: &Case) -> Done {
        let done = self.call(case);
        self.seen.answer(case.call().name, done.number);
        done
    }

    /// Counts what a chain of calls came to.
    pub fn answer(&mut self, number: u64) {
        self.seen.answer(self.run.name, number);
    }

    /// Notes a situation of the run's one group where it was met.
    pub fn meet(&mut self, situation: &'static str, met: bool) {
        self.meet_in(&self.run.groups[0], situation, met);
    }

    /// Notes a situation of a group where it was met.
    pub fn meet_in(&mut self, group: &Group, situation: &'static str, met: bool) {
        debug_assert!(group.1.contains(&situation), "{situation}");
        if met {
            self.seen.meet(group.0, situation);
        }
    }

    /// Notes what was to hold and doesn't.
    pub fn hold(&mut self, holds: bool, otherwise: &str) {
        if !holds {
            self.differences.push(otherwise.to_string());
        }
    }
}
