//! Every outcome as JSON: one object on standard output, well formed, and nothing on standard error.

mod common;

use common::*;

/// Reads one JSON value; the answer is what stands behind it. It panics where the text isn't JSON.
fn value(text: &str) -> &str {
    match text.as_bytes()[0] {
        b'{' => members(&text[1..], '}', true),
        b'[' => members(&text[1..], ']', false),
        b'"' => string(text),
        b'n' => text.strip_prefix("null").expect("null"),
        _ => {
            let rest = text.trim_start_matches(|c: char| c.is_ascii_digit());
            assert!(rest.len() < text.len(), "no value: {text}");
            // cents
            match rest.strip_prefix('.') {
                Some(cents) => cents.trim_start_matches(|c: char| c.is_ascii_digit()),
                None => rest,
            }
        }
    }
}

fn string(text: &str) -> &str {
    let mut rest = text.strip_prefix('"').expect("a string");
    loop {
        let c = rest.chars().next().expect("the string ends");
        rest = &rest[c.len_utf8()..];
        match c {
            '"' => return rest,
            '\\' => {
                let escaped = rest.as_bytes()[0];
                assert!(
                    b"\"\\nu".contains(&escaped),
                    "escape {}",
                    char::from(escaped)
                );
                rest = &rest[if escaped == b'u' { 5 } else { 1 }..];
            }
            other => assert!(other >= ' '),
        }
    }
}

fn members(text: &str, end: char, named: bool) -> &str {
    if let Some(rest) = text.strip_prefix(end) {
        return rest;
    }
    let mut rest = text;
    loop {
        if named {
            rest = string(rest).strip_prefix(':').expect("a colon");
        }
        rest = value(rest);
        if let Some(behind) = rest.strip_prefix(end) {
            return behind;
        }
        rest = rest.strip_prefix(',').expect("a comma");
    }
}

fn folder(name: &str) -> Folder {
    let folder = Folder::with_master(name);
    folder.write("two.bin", &two_rows("00"));
    folder.write("old.bin", &two_rows("  "));
    folder.write("weekly.bin", &weekly());
    folder.write("contacts.bin", &contact_file());
    folder.write("table.bin", &contact_table());
    folder.write("a\"b\\c.bin", &paper_row());
    folder.write("left.bin", &second_rows());
    folder.write("journal.bin", &second_journal());
    folder.write("keys.txt", b"OH123456789N\nOH987654321A\n");
    folder
}

/// Commands one behind the other, each with its status and outcome.
const COMMANDS: [(&str, i32, &str); 45] = [
    (
        "apply master.bin batch.bin --locals locals.bin --year 2007 --rejects rejects.bin",
        1,
        "carried out",
    ),
    (
        "check master.bin batch.bin --locals locals.bin --year 2007",
        3,
        "would be stopped",
    ),
    (
        "apply master.bin batch.bin --locals locals.bin --year 2007 --rejects rejects.bin --new",
        3,
        "failed",
    ),
    ("find master.bin OH123456789N", 0, "carried out"),
    ("find master.bin OH123456789A", 6, "not found"),
    ("find none OH123456789A", 3, "failed"),
    ("show master a\"b\\c.bin", 0, "carried out"),
    ("find a\"b\\c.bin OH1", 2, "refused"),
    ("show master a\"b\\c", 3, "failed"),
    (
        "reconcile master.bin --state OH --date 20071231 --out out.bin --force",
        0,
        "carried out",
    ),
    (
        "reconcile master.bin --state OH --date 20071331 --out out.bin --force",
        2,
        "refused",
    ),
    (
        "post two.bin weekly.bin --dry-run",
        1,
        "would be carried out",
    ),
    ("post two.bin weekly.bin", 1, "carried out"),
    ("post two.bin weekly.bin", 3, "failed"),
    ("log two.bin", 0, "carried out"),
    ("log master.bin", 0, "carried out"),
    ("log none", 3, "failed"),
    ("post two.bin batch.bin", 2, "refused"),
    ("add-cents old.bin", 0, "carried out"),
    ("add-cents old.bin", 2, "refused"),
    ("contacts table.bin contacts.bin", 1, "carried out"),
    ("contacts table.bin batch.bin", 2, "refused"),
    (
        "codes table.bin --state OH --out out.bin --force",
        0,
        "carried out",
    ),
    (
        "codes table.bin --state ZZ --out out.bin --force",
        2,
        "refused",
    ),
    ("to-ascii batch.bin --out out.bin --force", 0, "carried out"),
    ("to-ascii master.bin --out out.bin --force", 2, "refused"),
    ("to-ebcdic none --out out.bin --force", 3, "failed"),
    ("show batch batch.bin", 0, "carried out"),
    ("show collections weekly.bin", 0, "carried out"),
    ("explain 1", 0, "carried out"),
    ("explain 52", 0, "carried out"),
    ("explain 99", 3, "failed"),
    ("apply master.bin", 3, "failed"),
    ("find master.bin a b", 2, "carried out"),
    ("find master.bin --keys keys.txt", 6, "carried out"),
    ("find batch.bin --keys keys.txt", 2, "refused"),
    ("find master.bin --keys none", 3, "failed"),
    ("find master.bin", 3, "failed"),
    ("pages master.bin --out out.bin --force", 0, "carried out"),
    ("pages batch.bin --out out.bin --force", 2, "refused"),
    ("pages none --out out.bin --force", 3, "failed"),
    (
        "take-back left.bin journal.bin --dry-run",
        0,
        "would be carried out",
    ),
    ("take-back left.bin journal.bin", 0, "carried out"),
    ("take-back left.bin journal.bin", 2, "refused"),
    ("take-back left.bin none", 3, "failed"),
];

#[test]
fn every_command() {
    let folder = folder("json-commands");
    for (arguments, status, outcome) in COMMANDS {
        let command = words(arguments)[0];
        let ran = folder.run(&with(&words(arguments), &["--json"]));
        assert_eq!(ran.status, status, "{arguments}: {ran:?}");
        assert_eq!(ran.err, "", "{arguments}");
        assert_eq!(value(&ran.out), "\n", "{arguments}: {}", ran.out);
        let done = ["carried out", "would be carried out", "would be stopped"];
        let is_done = done.contains(&outcome);
        let schema = if is_done { command } else { "problem" };
        let start = format!(
            "{{\"command\":\"{command}\",\"version\":\"{}\",\"schema\":\"{schema}.1\",\"outcome\":\"{outcome}\",\"status\":{status},",
            fantanolive::VERSION
        );
        assert!(ran.out.starts_with(&start), "{arguments}: {}", ran.out);
    }
}

/// The members of an object, each with what it is.
fn members_of(text: &str) -> Vec<(String, &'static str)> {
    let mut list = Vec::new();
    let mut rest = text.trim_end().strip_prefix('{').expect("an object");
    while rest != "}" {
        rest = rest.strip_prefix(',').unwrap_or(rest);
        let behind = string(rest);
        let name = rest[1..rest.len() - behind.len() - 1].to_string();
        let behind = behind.strip_prefix(':').expect("a colon");
        let kind = match behind.as_bytes()[0] {
            b'{' => "object",
            b'[' => "list",
            b'"' => "text",
            b'n' => "null",
            _ => "number",
        };
        list.push((name, kind));
        rest = value(behind);
    }
    list
}

/// The tables of docs/JSON.md: for each heading the members, with their types.
fn documented() -> Vec<(String, Vec<(String, String)>)> {
    let path = std::path::Path::new(env!("CARGO_MANIFEST_DIR")).join("../docs/JSON.md");
    let text = std::fs::read_to_string(path).expect("it is there");
    let mut tables = vec![("every".to_string(), Vec::new())];
    for line in text.lines() {
        if let Some(heading) = line.strip_prefix("## ") {
            tables.push((heading.to_string(), Vec::new()));
        }
        let cells: Vec<&str> = line.split('|').map(str::trim).collect();
        if let ["", name, kind, ..] = cells[..] {
            if name != "member" && !name.starts_with('-') {
                let table = tables.last_mut().expect("the first is there");
                table.1.push((name.to_string(), kind.to_string()));
            }
        }
    }
    tables
}

/// The schema of an object, and that its members are those of the document.
fn see_documented(json: &str) -> String {
    let members = members_of(json);
    let start = json.find("\"schema\":\"").expect("it has a schema") + 10;
    let schema: String = json[start..].chars().take_while(|c| *c != '"').collect();
    let tables = documented();
    let of = |wanted: &str| {
        let named = |heading: &str| heading.split(" and ").any(|name| name == wanted);
        let table = tables.iter().find(|(heading, _)| named(heading));
        table
            .unwrap_or_else(|| panic!("{wanted} is in docs/JSON.md"))
            .1
            .clone()
    };
    let wanted = [of("every"), of(&schema)].concat();
    let is_done = !["problem.1", "explain.1"].contains(&&*schema);
    for (name, kind) in &members {
        let known = wanted
            .iter()
            .find(|(other, _)| other.trim_end_matches('?') == name);
        let Some((_, documented)) = known else {
            panic!("{schema} has {name}, which is not in docs/JSON.md");
        };
        assert!(
            documented == kind || *kind == "null",
            "{schema}: {name} is {kind}"
        );
    }
    for (name, _) in wanted.iter().filter(|(name, _)| !name.ends_with('?')) {
        let is_written = name == "written";
        let has = members.iter().any(|(other, _)| other == name);
        assert!(has || is_written && !is_done, "{schema} lacks {name}");
    }
    schema
}

/// Commands one behind the other that print every schema.
const EVERY_SCHEMA: [&str; 38] = [
    "check master.bin batch.bin --locals locals.bin --year 2007",
    "check master.bin batch.bin --locals locals.bin --year 2007 --by-office",
    "apply master.bin batch.bin --locals locals.bin --year 2007 --rejects r.bin --journal j.bin",
    "check master.bin batch.bin --locals locals.bin --year 2007",
    "post two.bin weekly.bin --dry-run",
    "post two.bin weekly.bin",
    "post two.bin weekly.bin --dry-run",
    "contacts table.bin contacts.bin",
    "compare left.bin rec.bin --state OH",
    "compare left.bin rec.bin --state OH --records made.bin",
    "build details.csv --out built.bin",
    "build --template --out names.csv",
    "control batch.bin --out control.bin",
    "export batch batch.bin --out batch.csv",
    "export master two.bin --out two.csv",
    "split batch.bin --at 1 --out part",
    "merge part001 part002 --out merged.bin --anyway",
    "take-back left.bin journal.bin --dry-run",
    "find master.bin OH123456789N",
    "find master.bin --keys keys.txt",
    "edit left.bin OH123456789N --amount 7 --out edit.bin",
    "records first.bin first.bin --out none.bin",
    "reconcile left.bin --state OH --date 20071231 --out made-rec.bin",
    "pages left.bin --out pages.bin",
    "add-cents old.bin",
    "log two.bin",
    "log left.bin",
    "codes table.bin --state OH --out codes.bin",
    "to-ascii batch.bin --out batch.txt",
    "to-ebcdic batch.txt --out back.bin",
    "show collections weekly.bin",
    "show batch part001",
    "explain 17",
    "explain 51",
    "find master.bin OH123456789A",
    "find none OH123456789A",
    "split batch.bin --at 9 --out part",
    "post two.bin batch.bin",
];

/// What every command prints has the members of docs/JSON.md, and every table there is met.
#[test]
fn schemas_are_documented() {
    let folder = folder("json-schemas");
    folder.write(
        "rec.bin",
        &record(&[(1, "RCTOH000000000000000000000000000"), (33, "20071231")]),
    );
    folder.write("details.csv", b"submitting_state_code\nOH\n");
    folder.write("first.bin", &second_rows()[..200]);
    let mut met = Vec::new();
    for arguments in EVERY_SCHEMA {
        let ran = folder.run(&with(&words(arguments), &["--json"]));
        assert_eq!(value(&ran.out), "\n", "{arguments}: {ran:?}");
        met.push(see_documented(&ran.out));
    }
    for (heading, _) in &documented()[1..] {
        for schema in heading.split(" and ") {
            assert!(
                met.iter().any(|other| other == schema),
                "{schema} is not met"
            );
        }
    }
}
