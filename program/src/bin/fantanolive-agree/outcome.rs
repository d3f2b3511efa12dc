//! What a run came to.

use agreement::run::Report;
use agreement::seen::Section;
use fantanolive_program::{counted, Arguments, Status};

use crate::asked::Asked;

pub struct Done {
    pub seed: u64,
    pub calls: Vec<usize>,
    pub skipped: Vec<&'static str>,
    pub report: Report,
    pub missing: Vec<String>,
    pub status: Status,
}

pub fn judged(
    arguments: &Arguments,
    asked: &Asked,
    calls: Vec<usize>,
    skipped: Vec<&'static str>,
    report: Report,
) -> Done {
    let is_replay = arguments.flag("--replay");
    let missing = match is_replay {
        true => Vec::new(),
        false => report.seen.missing(&calls),
    };
    let status = match (
        report.found.is_empty() && report.beyond.is_empty(),
        missing.is_empty() || asked.cases.is_some(),
    ) {
        (false, _) => Status::Rejects,
        (true, true) => Status::Done,
        (true, false) => Status::Problem,
    };
    Done {
        seed: asked.seed,
        calls,
        skipped,
        report,
        missing,
        status,
    }
}

/// The first line: whether they agree.
pub fn verdict(done: &Done) -> String {
    let cases = counted(done.report.cases, "case");
    match done.report.found.len() + done.report.beyond.len() {
        0 if done.missing.is_empty() => format!("no difference in {cases}"),
        0 => format!("no difference in {cases}, but not everything was seen"),
        kinds => format!(
            "they part: {} of difference in {cases}",
            counted(kinds as u64, "kind")
        ),
    }
}

/// The table, where cases were made.
pub fn table(done: &Done) -> Vec<Section> {
    match done.report.is_replay {
        true => Vec::new(),
        false => done.report.seen.table(&done.calls),
    }
}
