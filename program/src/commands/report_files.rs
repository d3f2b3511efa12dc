//! The reports that --html and --csv ask for: files like any other that a run makes.

use crate::arguments::Arguments;
use crate::failure::{shown, Failure};
use crate::files::outputs::Outputs;
use crate::files::replace::Staged;
use crate::log::time;
use crate::progress::Progress;
use crate::report::csv;
use crate::report::html::Page;
use crate::report::summary::Summary;

/// The options that name files to be made, with those of the reports that are asked for.
pub fn with_reports(arguments: &Arguments, made: &[&'static str]) -> Vec<&'static str> {
    let asked = ["--html", "--csv"].into_iter();
    let asked = asked.filter(|option| arguments.flag(option));
    made.iter().copied().chain(asked).collect()
}

/// A chart, where a page is asked for.
pub fn chart(
    arguments: &Arguments,
    make: impl FnOnce() -> Vec<(String, u64, String)>,
) -> Vec<(String, u64, String)> {
    match arguments.flag("--html") {
        true => make(),
        false => Vec::new(),
    }
}

/// What a page says of the files that were read.
pub fn about(arguments: &Arguments, read: &str) -> String {
    let first = shown(arguments.path(0));
    format!("{read} against {first}, {}", time::now())
}

/// Writes the reports that are asked for.
pub fn stage(
    outputs: &Outputs,
    arguments: &Arguments,
    progress: &Progress,
    summary: &Summary,
    page: &Page,
) -> Result<Vec<Staged<'static>>, Failure> {
    let mut staged = Vec::new();
    if arguments.flag("--html") {
        staged.push(outputs.stage_made("--html", progress, |out| Ok(page.put(summary, out)?))?);
    }
    if arguments.flag("--csv") {
        staged.push(outputs.stage_made("--csv", progress, |out| {
            Ok(csv::put_sheet(out, page.list, page.full)?)
        })?);
    }
    Ok(staged)
}
