//! The report as JSON.

use std::io::{self, Write};

use agreement::protocol::names;
use agreement::report;
use agreement::run::Found;
use fantanolive::VERSION;
use fantanolive_program::Json;

use crate::outcome::{table, verdict, Done};

pub fn put_json<W: Write>(json: &mut Json<W>, done: &Done) -> io::Result<()> {
    json.text_of("command", "agree")?;
    json.text_of("version", VERSION)?;
    json.text_of("outcome", &verdict(done))?;
    json.number_of("status", done.status as u64)?;
    json.number_of("cases", done.report.cases)?;
    json.number_of("milliseconds", (done.report.seconds * 1000.0) as u64)?;
    json.number_of("seed", done.seed)?;
    put_names(json, "lacking", &done.skipped)?;
    put_names(json, "given up", &names(&done.report.given_up))?;
    json.name("differences")?;
    json.begin_array()?;
    for one in &done.report.found {
        put_json_difference(json, one)?;
    }
    json.end_array()?;
    json.number_of("more", done.report.more)?;
    json.number_of("limits", done.report.limits as u64)?;
    put_names(json, "beyond", &done.report.beyond)?;
    json.name("seen")?;
    json.begin_object()?;
    for section in table(done) {
        json.name(section.call)?;
        json.begin_object()?;
        let lines = section.refusals.iter().chain(&section.codes);
        let lines = lines.chain(&section.situations).chain(&section.pairs);
        for line in lines {
            json.any_name(&line.name)?;
            json.number(line.count)?;
        }
        json.end_object()?;
    }
    json.end_object()?;
    put_names(json, "not seen", &done.missing)
}

fn put_names<W: Write>(
    json: &mut Json<W>,
    name: &'static str,
    list: &[impl AsRef<str>],
) -> io::Result<()> {
    json.name(name)?;
    json.begin_array()?;
    for one in list {
        json.text(one.as_ref())?;
    }
    json.end_array()
}

fn put_json_difference<W: Write>(json: &mut Json<W>, one: &Found) -> io::Result<()> {
    let (details, rows) = report::size(&one.case);
    json.begin_object()?;
    json.text_of("call", one.case.call().name)?;
    json.text_of("field", &one.difference.kind.field)?;
    json.text_of("place", &report::place(one))?;
    json.number_of("ours", one.difference.kind.answers.0)?;
    if let Some(answer) = one.difference.kind.answers.1 {
        json.number_of("other", answer)?;
    }
    json.number_of("times", one.count)?;
    json.number_of("first case", one.first)?;
    json.number_of("details", details as u64)?;
    json.number_of("rows", rows as u64)?;
    put_names(json, "account", &report::lines(one))?;
    json.end_object()
}
