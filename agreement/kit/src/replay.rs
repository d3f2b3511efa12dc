//! Cases of files on an engine: what it makes of each is held against what the file says.

use std::time::Instant;

use crate::compare::compare;
use crate::run::{Found, Options, Pair, Report, MOST_KINDS};
use crate::seen::Seen;
use crate::text::Fixed;

/// Runs the cases of the calls asked for; every difference counts by its kind.
pub fn replay(pair: &mut Pair, options: &Options, cases: &[Fixed]) -> Report {
    let start = Instant::now();
    let mut report = Report {
        cases: 0,
        seconds: 0.0,
        found: Vec::new(),
        more: 0,
        seen: Seen::default(),
        is_replay: true,
        given_up: Vec::new(),
        limits: 0,
        beyond: Vec::new(),
    };
    for fixed in cases
        .iter()
        .filter(|fixed| options.calls.contains(&fixed.case.call))
    {
        // a case that must be changed for an older engine is none of its cases
        let put = pair.older.put(&fixed.case);
        let Some(put) = put.filter(|put| put.ours == fixed.case) else {
            continue;
        };
        report.cases += 1;
        let theirs = pair.theirs.run(&put.theirs);
        let wanted = pair.older.wanted(&put, fixed.wanted.clone());
        let Some(difference) = compare(&put.theirs, &wanted, &theirs) else {
            continue;
        };
        let found = &mut report.found;
        let is_full = found.len() >= MOST_KINDS;
        match found
            .iter_mut()
            .find(|found| found.difference.kind == difference.kind)
        {
            Some(found) => found.count += 1,
            None if is_full => report.more += 1,
            None => found.push(Found {
                case: put.theirs,
                ours: wanted,
                theirs,
                difference,
                count: 1,
                first: report.cases,
            }),
        }
    }
    report.seconds = start.elapsed().as_secs_f64();
    report
}
