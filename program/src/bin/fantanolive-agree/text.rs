//! The report as text.

use std::io::{self, Write};

use agreement::protocol::names;
use agreement::report;
use agreement::seen::{Line, Section};
use fantanolive_program::{counted, grouped, Screen, Style};

use crate::outcome::{table, verdict, Done};

pub fn put_text<W: Write>(screen: &mut Screen<W>, done: &Done) -> io::Result<()> {
    let report = &done.report;
    screen.line(Style::Heading, &verdict(done))?;
    screen.plain(&format!(
        "seed {}, {:.1} seconds",
        done.seed, report.seconds
    ))?;
    if !done.skipped.is_empty() {
        screen.plain(&format!("calls that it lacks: {}", done.skipped.join(", ")))?;
    }
    if !report.given_up.is_empty() {
        let calls = names(&report.given_up).join(", ");
        screen.plain(&format!("calls left out after many failures: {calls}"))?;
    }
    for (at, one) in report.found.iter().enumerate() {
        screen.plain("")?;
        let often = counted(one.count, "time");
        let heading = format!(
            "difference {}, met {often}, first in case {}",
            at + 1,
            grouped(one.first)
        );
        screen.line(Style::Error, &heading)?;
        for line in report::lines(one) {
            screen.plain(&line)?;
        }
    }
    for line in &report.beyond {
        screen.line(Style::Error, &format!("at a limit: {line}"))?;
    }
    if report.limits > 0 {
        screen.plain(&format!("limits tried in full: {}", report.limits))?;
    }
    if report.more > 0 {
        screen.plain("")?;
        screen.plain(&format!("and {} more", counted(report.more, "kind")))?;
    }
    put_table(screen, done)
}

fn put_table<W: Write>(screen: &mut Screen<W>, done: &Done) -> io::Result<()> {
    let table = table(done);
    if table.is_empty() {
        return Ok(());
    }
    screen.plain("")?;
    screen.line(Style::Heading, "seen")?;
    for section in &table {
        screen.plain(section.call)?;
        put_counts(screen, &section.refusals)?;
        put_counts(screen, &section.codes)?;
        for line in section.situations.iter().chain(&pairs_line(section)) {
            screen.plain(&format!("  {:<58}{:>10}", line.name, grouped(line.count)))?;
        }
    }
    for line in done.report.seen.chains(&done.calls) {
        screen.plain(&format!("{:<60}{:>10}", line.name, grouped(line.count)))?;
    }
    for name in &done.missing {
        screen.line(Style::Warning, &format!("not seen: {name}"))?;
    }
    Ok(())
}

/// The pairs of refusals in one line: how many of them were seen together, and how often in all.
fn pairs_line(section: &Section) -> Option<Line> {
    let seen = section.pairs.iter().filter(|pair| pair.count > 0).count();
    let all = section.pairs.len();
    (all > 0).then(|| Line {
        name: format!("two refusals together: {seen} of {all} pairs"),
        count: section.pairs.iter().map(|pair| pair.count).sum(),
    })
}

fn put_counts<W: Write>(screen: &mut Screen<W>, lines: &[Line]) -> io::Result<()> {
    for line in lines.chunks(4) {
        let cells: Vec<String> = line
            .iter()
            .map(|one| format!("{:<12}{:>9}", one.name, grouped(one.count)))
            .collect();
        screen.plain(&format!("  {}", cells.join("   ")))?;
    }
    Ok(())
}
