//! merge: two batches and more made one, worked out by hand; keys with a B in several of them, and what is refused.

mod common;

use std::fs;
use std::path::Path;

use common::*;

fn detail(kind: &str, ssn: &str, case_type: &str, name: &str, dollars: &str) -> Vec<u8> {
    record(&[
        (1, "OH"),
        (6, ssn),
        (30, name),
        (50, "JOHN"),
        (65, dollars),
        (73, kind),
        (74, case_type),
    ])
}

/// M and A; then B and M of another key, and D; then a C of that key.
fn details() -> [Vec<u8>; 3] {
    let first = [
        detail("M", "123456789", "N", "SMITH", "00000100"),
        detail("A", "987654321", "A", "BROWN", "00001400"),
    ];
    let second = [
        detail("B", "987654321", "N", "BROWN", "00000700"),
        detail("M", "987654321", "N", "BROWN", "00000200"),
        detail("D", "123456789", "N", "SMITH", "00000900"),
    ];
    let third = detail("C", "987654321", "N", "BROWN", "");
    [first.concat(), second.concat(), third]
}

fn batches() -> [Vec<u8>; 3] {
    let [first, second, third] = details();
    [
        [first, control(1, 1, 1400, 100)].concat(),
        [second, control(0, 3, 0, 200)].concat(),
        [third, control(0, 1, 0, 0)].concat(),
    ]
}

const FILES: [&str; 3] = ["first.bin", "second.bin", "third.bin"];

fn folder(name: &str) -> Folder {
    let folder = Folder::with_example(name);
    for (name, bytes) in FILES.iter().zip(batches()) {
        folder.write(name, &bytes);
    }
    folder
}

const TWO: [&str; 5] = ["merge", "first.bin", "second.bin", "--out", "merged.bin"];

const THREE: [&str; 6] = [
    "merge",
    "first.bin",
    "second.bin",
    "third.bin",
    "--out",
    "merged.bin",
];

fn expected(name: &str) -> String {
    let folder = Path::new(env!("CARGO_MANIFEST_DIR")).join("tests/expected");
    let text = fs::read_to_string(folder.join(name)).expect("it is there");
    text.replace("VERSION", fantanolive::VERSION)
}

fn two_merged() -> Vec<u8> {
    let [first, second, _] = details();
    [first, second, control(1, 4, 1400, 300)].concat()
}

#[test]
fn two_batches() {
    let folder = folder("merging-two");
    let ran = folder.run(&TWO);
    assert_eq!((ran.out, ran.err.as_str()), (expected("merge.txt"), ""));
    assert_eq!(ran.status, 0);
    assert_eq!(folder.read("merged.bin"), two_merged());
    for name in FILES {
        let bytes = folder.read(name);
        folder.write(name, &ascii(&bytes));
    }
    let ran = folder.run(&with(&TWO, &["--ascii", "--force"]));
    assert_eq!((ran.status, ran.out), (0, expected("merge.txt")));
    assert_eq!(folder.read("merged.bin"), ascii(&two_merged()));
}

#[test]
fn batches_without_details() {
    let folder = folder("merging-empty");
    folder.write("second.bin", &control(0, 0, 0, 0));
    assert_eq!(folder.run(&TWO).status, 0);
    assert_eq!(folder.read("merged.bin"), batches()[0]);
    folder.write("first.bin", &control(0, 0, 0, 0));
    assert_eq!(folder.run(&with(&TWO, &["--force"])).status, 0);
    assert_eq!(folder.read("merged.bin"), control(0, 0, 0, 0));
}

#[test]
fn a_key_with_a_b_in_several() {
    let folder = folder("merging-shared");
    let before = folder.names();
    let ran = folder.run(&THREE);
    assert_eq!(
        (ran.status, ran.out.as_str(), ran.err),
        (3, "", expected("merge-stopped.txt"))
    );
    assert_eq!(folder.names(), before);
    let ran = folder.run(&with(&THREE, &["--json"]));
    assert_eq!((ran.status, ran.err.as_str()), (3, ""));
    assert!(ran.out.contains("\"notes\":[\"OH*****4321N begins"));
    let anyway = with(&THREE, &["--anyway"]);
    let ran = folder.run(&anyway);
    assert_eq!((ran.status, ran.out), (0, expected("merge-anyway.txt")));
    let merged = [details().concat(), control(1, 5, 1400, 300)].concat();
    assert_eq!(folder.read("merged.bin"), merged);
    let ran = folder.run(&with(&anyway, &["--force", "--json"]));
    let shared = "\"keys_in_several_batches\":[{\"key\":\"OH*****4321N\",\"first\":{\"file\":\"second.bin\",\"record\":1},\"last\":{\"file\":\"third.bin\",\"record\":1},\"name_change\":{\"file\":\"second.bin\",\"record\":1}}]}\n";
    assert!(ran.out.ends_with(shared), "{}", ran.out);
    let ran = folder.run(&with(&anyway, &["--force", "--full"]));
    assert!(ran.out.contains("OH987654321N begins"), "{}", ran.out);
}

#[test]
fn the_b_may_be_in_any_of_them() {
    let folder = folder("merging-places");
    // the first name differs, so that no batch is there twice
    let one = |kind: &str, name: &str| {
        let mut record = detail(kind, "123456789", "N", "SMITH", "");
        record[49..54].copy_from_slice(&ebcdic(&name.to_uppercase()[..5]));
        [record, control(0, 1, 0, 0)].concat()
    };
    for (first, second, third, status) in [
        ("B", "C", "", 3),
        ("C", "B", "", 3),
        ("C", "C", "", 0),
        ("C", "C", "B", 3),
        ("C", "", "B", 3),
        ("B", "", "", 0),
        ("", "", "B", 0),
    ] {
        for (name, kind) in FILES.iter().zip([first, second, third]) {
            let batch = match kind {
                "" => control(0, 0, 0, 0),
                kind => one(kind, name),
            };
            folder.write(name, &batch);
        }
        let ran = folder.run(&with(&THREE, &["--force"]));
        assert_eq!(ran.status, status, "{first} {second} {third}: {ran:?}");
    }
}

/// What a master is after batches, one behind the other.
fn applied(files: &[&str]) -> Vec<u8> {
    let folder = folder("merging-applied");
    assert_eq!(folder.run(&TWO).status, 0);
    let rows = [
        row("OH123456789N", "00000025", "00"),
        row("OH987654321N", "00000100", "00"),
    ];
    folder.write("master.bin", &rows.concat());
    for file in files {
        let mut apply = APPLY;
        apply[2] = file;
        let ran = folder.run(&with(&apply, &["--force"]));
        assert!(ran.status < 2, "{ran:?}");
    }
    folder.read("master.bin")
}

#[test]
fn the_merged_batch_does_what_the_two_do() {
    assert_eq!(applied(&["merged.bin"]), applied(&FILES[..2]));
}

/// The words on standard error in one line.
fn told(ran: &Ran) -> String {
    let words: Vec<&str> = ran.err.split_whitespace().collect();
    words.join(" ")
}

#[test]
fn batches_that_are_refused() {
    let whole = batches();
    let [first, ..] = &whole;
    let front = &first[..490];
    for (bytes, refusal, note) in [
        (Vec::new(), 5, "the file is empty"),
        (front.to_vec(), 6, "no CTL in columns 3-5"),
        (
            [front, &control(0, 1, 1400, 100)].concat(),
            7,
            "Total TANF Records (6-14): stated 0, counted 1, difference 1",
        ),
        (
            [front, &control(1, 1, 0, 100)].concat(),
            8,
            "Total TANF Amount (24-34): stated 0, counted 1,400, difference 1,400",
        ),
    ] {
        for name in FILES {
            let folder = folder("merging-refused");
            folder.write(name, &bytes);
            let before = folder.names();
            let ran = folder.run(&with(&THREE, &["--anyway"]));
            let told = told(&ran);
            assert_eq!(ran.status, 2, "{told}");
            assert!(told.contains(&format!("refused {refusal}: ")), "{told}");
            assert!(told.contains(&format!("{name}: ")), "{told}");
            assert!(told.contains(note), "{told}");
            assert_eq!(folder.names(), before);
        }
    }
}

#[test]
fn the_first_is_judged_before_the_second() {
    let folder = folder("merging-order");
    folder.write("first.bin", &batches()[0][..490]);
    folder.write("second.bin", &[]);
    let ran = folder.run(&TWO);
    assert!(told(&ran).contains("refused 6: "), "{ran:?}");
    assert!(told(&ran).contains("first.bin: the last of 2 records"));
}

#[test]
fn states_and_amounts() {
    let folder = folder("merging-states");
    let mut other = control(0, 0, 0, 0);
    other[..2].copy_from_slice(&ebcdic("NY"));
    folder.write("second.bin", &other);
    let ran = folder.run(&TWO);
    let said = told(&ran);
    assert_eq!(ran.status, 2, "{said}");
    assert!(said.contains("refused 32: "), "{said}");
    let one = "first.bin: state OH, 2 details, TANF 1,400 dollars, Non-TANF 100 dollars";
    let next = "second.bin: state NY, 0 details, TANF 0 dollars, Non-TANF 0 dollars";
    assert!(said.contains(one) && said.contains(next), "{said}");
    // 600 records of 99,999,999 dollars are below 99,999,999,999; 1,200 aren't
    let m = detail("M", "123456789", "N", "SMITH", "99999999");
    let half = [m.repeat(600), control(0, 600, 0, 59_999_999_400)].concat();
    folder.write("first.bin", &half);
    folder.write("second.bin", &half);
    let ran = folder.run(&TWO);
    assert_eq!(ran.status, 2);
    let sum = "second.bin: state OH, 600 details, TANF 0 dollars, Non-TANF 59,999,999,400 dollars";
    assert!(told(&ran).contains("refused 32: ") && told(&ran).contains(sum));
    assert!(!folder.has("merged.bin"));
}

#[test]
fn command_lines_and_places() {
    let folder = folder("merging-arguments");
    for (arguments, message) in [
        ("merge --out x", "FIRST is missing"),
        ("merge first.bin --out x", "SECOND is missing"),
        ("merge first.bin second.bin", "--out FILE is missing"),
        ("merge - second.bin - --out x", "one of the inputs alone"),
        ("merge first.bin no.bin --out x", "no.bin: can't be read"),
        (
            "merge first.bin second.bin third.bin --out third.bin --force",
            "the run reads third.bin",
        ),
    ] {
        let ran = folder.run(&words(arguments));
        assert_eq!(ran.status, 3, "{arguments}: {ran:?}");
        assert!(ran.err.contains(message), "{arguments}: {}", ran.err);
    }
    let help = folder.run(&["merge", "--help"]).out;
    let usage = "usage: fantanolive merge FIRST SECOND [MORE ..] --out FILE";
    assert!(help.starts_with(usage), "{help}");
    folder.write("master.bin", &paper_row());
    let onto = ["merge", "first.bin", "second.bin", "--out", "master.bin"];
    assert_eq!(folder.run(&onto).status, 3);
    assert_eq!(folder.run(&with(&onto, &["--force"])).status, 3);
    assert_eq!(folder.read("master.bin"), paper_row());
}

#[test]
fn a_batch_that_is_there_twice() {
    let folder = folder("merging-twice");
    folder.write("copy.bin", &batches()[0]);
    for (other, note) in [
        ("first.bin", "first.bin is given twice"),
        ("copy.bin", "copy.bin has the same records as first.bin"),
    ] {
        let merge = ["merge", "first.bin", other, "--out", "merged.bin"];
        let ran = folder.run(&merge);
        assert_eq!((ran.status, ran.out.as_str()), (3, ""), "{ran:?}");
        assert!(ran.err.contains("a batch is there twice"), "{}", ran.err);
        assert!(ran.err.contains(&format!("  {note}\n")), "{}", ran.err);
        assert!(!folder.has("merged.bin"));
        let ran = folder.run(&with(&merge, &["--anyway"]));
        assert_eq!(ran.status, 0, "{ran:?}");
        assert!(ran.out.contains(&format!("  {note}\n")), "{}", ran.out);
        fs::remove_file(folder.path("merged.bin")).expect("it is there");
    }
    // batches without details change nothing
    folder.write("none.bin", &control(0, 0, 0, 0));
    let merge = ["merge", "none.bin", "none.bin", "--out", "merged.bin"];
    assert_eq!(folder.run(&merge).status, 0);
}
