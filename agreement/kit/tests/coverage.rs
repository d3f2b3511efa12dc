//! Every sentence of docs/RULES.md has a fixed case, or a line in no-case.txt that says why none can be; every case and every such
//! line names a sentence that is there.

use std::collections::BTreeSet;
use std::fs;
use std::path::{Path, PathBuf};

use agreement::explain::sentences;
use agreement::text::{read, written, Fixed};

fn folder() -> PathBuf {
    Path::new(env!("CARGO_MANIFEST_DIR")).join("..")
}

/// All fixed cases.
fn cases() -> Vec<Fixed> {
    let files = fs::read_dir(folder().join("cases")).expect("the folder of cases");
    let mut cases = Vec::new();
    for path in files.flatten().map(|entry| entry.path()) {
        let text = fs::read_to_string(&path).expect("a file of cases");
        cases.extend(read(&text).unwrap_or_else(|what| panic!("{}: {what}", path.display())));
    }
    cases
}

/// A sentence in ASCII, as the files have it.
fn plain(words: &str) -> String {
    let sign = |sign: char| match sign {
        '–' | '−' => "-".to_string(),
        '÷' => "/".to_string(),
        '×' => "x".to_string(),
        '≤' => "<=".to_string(),
        '…' => "..".to_string(),
        '’' => "'".to_string(),
        '“' | '”' => "\"".to_string(),
        '`' => String::new(),
        other => other.to_string(),
    };
    words.chars().map(sign).collect()
}

/// Section and words of each sentence.
fn known() -> Vec<(String, String)> {
    let one = |one: &agreement::explain::Sentence| {
        let section = one.section.replace("Document 02, ", "");
        (plain(&section), plain(one.words))
    };
    sentences().iter().map(one).collect()
}

/// The lines of no-case.txt: section, beginning, reason.
fn without() -> Vec<[String; 3]> {
    let text = fs::read_to_string(folder().join("no-case.txt")).expect("no-case.txt");
    let lines = text.lines().filter(|line| !line.starts_with('#'));
    lines
        .map(|line| {
            let mut parts = line.splitn(3, " | ").map(str::to_string);
            std::array::from_fn(|_| {
                parts
                    .next()
                    .unwrap_or_else(|| panic!("no-case.txt: {line}"))
            })
        })
        .collect()
}

#[test]
fn every_sentence_has_a_case_or_a_reason() {
    let cited: BTreeSet<String> = cases()
        .iter()
        .flat_map(|case| &case.sentences)
        .filter_map(|sentence| sentence.splitn(3, " | ").nth(2).map(str::to_string))
        .collect();
    let without = without();
    for (section, words) in known() {
        let excused = without
            .iter()
            .any(|[of, start, _]| *of == section && (start == "*" || words.starts_with(start)));
        let has_case = cited.contains(&words);
        assert!(
            has_case || excused,
            "no case and no reason: {section} | {words}"
        );
        assert!(
            !(has_case && excused),
            "a case and a reason why none: {section} | {words}"
        );
    }
}

#[test]
fn every_case_and_reason_names_a_sentence() {
    let known: BTreeSet<(String, String)> = known().into_iter().collect();
    let mut names = BTreeSet::new();
    for case in cases() {
        assert!(
            !case.sentences.is_empty(),
            "{} names no sentence",
            case.name
        );
        assert!(
            names.insert(case.name.clone()),
            "{} stands twice",
            case.name
        );
        for sentence in &case.sentences {
            let parts: Vec<&str> = sentence.splitn(3, " | ").collect();
            let [document, section, words] = parts[..] else {
                panic!("{}: {sentence}", case.name)
            };
            let is_there = known.contains(&(section.to_string(), words.to_string()));
            assert!(is_there, "{}: no such sentence: {sentence}", case.name);
            let wanted = if section.starts_with("item ") {
                "02"
            } else {
                "01"
            };
            assert_eq!(document, wanted, "{}", case.name);
        }
    }
    for [section, start, _] in without() {
        let fits = |(of, words): &(String, String)| {
            *of == section && (start == "*" || words.starts_with(&start))
        };
        assert!(known.iter().any(fits), "no-case.txt: {section} | {start}");
    }
}

#[test]
fn cases_are_written_as_they_are_read() {
    for case in cases() {
        let again = read(&written(&case)).expect("what was written");
        assert_eq!(again.len(), 1);
        assert_eq!(again[0].case, case.case, "{}", case.name);
        assert_eq!(again[0].wanted, case.wanted, "{}", case.name);
    }
}
