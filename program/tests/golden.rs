//! What each command prints and writes on the paper's example and the C examples' files, worked out by hand (tests/expected).

mod common;

use std::fs;
use std::path::Path;

use common::*;

/// The text of a file of tests/expected, with the program's version where it says VERSION.
fn expected(name: &str) -> String {
    let path = Path::new(env!("CARGO_MANIFEST_DIR"))
        .join("tests/expected")
        .join(name);
    let text = fs::read_to_string(path).unwrap_or_else(|error| panic!("{name}: {error}"));
    text.replace("VERSION", fantanolive::VERSION)
}

/// Runs a command and compares its status and all that it prints.
fn compare(folder: &Folder, arguments: &[&str], status: i32, name: &str) {
    let ran = folder.run(arguments);
    let printed = ran.out + &ran.err;
    assert_eq!(printed, expected(name), "{arguments:?}");
    assert_eq!(ran.status, status, "{arguments:?}");
}

#[test]
fn paper_example_applied() {
    let folder = Folder::with_example("golden-apply");
    compare(&folder, &with(&APPLY, &["--new"]), 1, "apply.txt");
    assert_eq!(folder.read("master.bin"), paper_row());
    assert_eq!(folder.read("rejects.bin"), paper_rejects());
    let names = [
        "batch.bin",
        "locals.bin",
        "master.bin",
        "master.bin.log",
        "rejects.bin",
    ];
    assert_eq!(folder.names(), names);
}

#[test]
fn paper_example_checked() {
    let folder = Folder::with_example("golden-check");
    compare(&folder, &with(&CHECK, &["--new"]), 1, "check.txt");
    compare(
        &folder,
        &with(&CHECK, &["--new", "--json"]),
        1,
        "check.json",
    );
    assert_eq!(folder.names(), ["batch.bin", "locals.bin"]);
}

#[test]
fn paper_example_in_ascii() {
    let folder = Folder::with_example("golden-ascii");
    folder.write("batch.bin", &ascii(&paper_batch()));
    compare(
        &folder,
        &with(&APPLY, &["--new", "--ascii"]),
        1,
        "apply.txt",
    );
    assert_eq!(folder.read("master.bin"), paper_row());
    assert_eq!(folder.read("rejects.bin"), ascii(&paper_rejects()));
}

#[test]
fn paper_example_refused() {
    let folder = Folder::with_master("golden-refused");
    let batch = [&paper_batch()[..490], &control(0, 3, 0, 125)].concat();
    folder.write("batch.bin", &batch);
    compare(&folder, &CHECK, 2, "refused.txt");
}

#[test]
fn pages_of_a_master() {
    let folder = Folder::new("golden-pages");
    folder.write("two.bin", &two_rows("00"));
    let pages = ["pages", "two.bin", "--out", "pages.txt", "--text"];
    compare(&folder, &pages, 0, "pages.txt");
    let text = String::from_utf8(folder.read("pages.txt")).expect("it is ASCII");
    assert_eq!(text, expected("page.txt"));
}

#[test]
fn journaled_and_taken_back() {
    let folder = Folder::with_example("golden-back");
    folder.write("two.bin", &two_rows("00"));
    folder.write("second.bin", &second_batch());
    compare(&folder, &JOURNALED, 0, "apply-journal.txt");
    assert_eq!(folder.read("two.bin"), second_rows());
    assert_eq!(folder.read("journal.bin"), second_journal());
    let back = ["take-back", "two.bin", "journal.bin"];
    compare(&folder, &back, 0, "take-back.txt");
    assert_eq!(folder.read("two.bin"), two_rows("00"));
}

#[test]
fn several_keys() {
    let folder = Folder::new("golden-keys");
    folder.write("two.bin", &two_rows("00"));
    let keys = ["OH987654321A", "OH123456789A", "OH12345678N"];
    let find = with(&["find", "two.bin"], &keys);
    compare(&folder, &find, 2, "find-keys.txt");
}

#[test]
fn found_and_reconciled() {
    let folder = Folder::with_master("golden-find");
    compare(
        &folder,
        &["find", "master.bin", "OH123456789N"],
        0,
        "find.txt",
    );
    let reconcile = [
        "reconcile",
        "master.bin",
        "--state",
        "OH",
        "--date",
        "20071231",
        "--out",
        "rec.bin",
    ];
    compare(&folder, &reconcile, 0, "reconcile.txt");
    let rec = record(&[
        (1, "RECOH000123456789"),
        (33, "SMITH"),
        (53, "JOHN"),
        (63, "00000025N"),
    ]);
    let rct = record(&[(1, "RCTOH000000000000000001000000001"), (33, "20071231")]);
    assert_eq!(folder.read("rec.bin"), [rec, rct].concat());
    let show = ["show", "reconciliation", "rec.bin", "--list"];
    compare(&folder, &show, 0, "show-reconciliation.txt");
    let ran = folder.run(&with(&reconcile, &["--ascii", "--force"]));
    assert_eq!(ran.status, 0);
    assert!(folder.read("rec.bin").starts_with(b"RECOH000123456789"));
}

#[test]
fn shown() {
    let folder = Folder::with_master("golden-show");
    folder.write("rejects.bin", &paper_rejects());
    compare(
        &folder,
        &["show", "batch", "batch.bin"],
        0,
        "show-batch.txt",
    );
    let rejects = ["show", "rejects", "rejects.bin", "--list"];
    compare(&folder, &rejects, 0, "show-rejects.txt");
    let master = ["show", "master", "master.bin", "--json"];
    compare(&folder, &master, 0, "show-master.json");
    folder.write("batch.txt", &ascii(&paper_batch()));
    let text = ["show", "batch", "batch.txt", "--ascii"];
    compare(&folder, &text, 0, "show-batch.txt");
}

#[test]
fn explained() {
    compare(
        &Folder::new("golden-explain"),
        &["explain", "17"],
        0,
        "explain.txt",
    );
}

#[test]
fn contacts_and_codes() {
    let folder = Folder::new("golden-contacts");
    folder.write("contacts.bin", &contact_file());
    let contacts = ["contacts", "table.bin", "contacts.bin", "--new"];
    compare(&folder, &contacts, 1, "contacts.txt");
    assert_eq!(folder.read("table.bin"), contact_table());
    let codes = ["codes", "table.bin", "--state", "OH", "--out", "codes.bin"];
    compare(&folder, &codes, 0, "codes.txt");
    assert_eq!(folder.read("codes.bin"), ebcdic("001007"));
    assert_eq!(folder.run(&with(&codes, &["--ascii", "--force"])).status, 0);
    assert_eq!(folder.read("codes.bin"), b"001007");
}

#[test]
fn cents_and_posting() {
    let folder = Folder::new("golden-post");
    folder.write("two.bin", &two_rows("  "));
    compare(&folder, &["add-cents", "two.bin"], 0, "add-cents.txt");
    assert_eq!(folder.read("two.bin"), two_rows("00"));
    folder.write("weekly.bin", &weekly());
    compare(&folder, &["post", "two.bin", "weekly.bin"], 1, "post.txt");
    assert_eq!(folder.read("two.bin"), two_rows_posted());
}

#[test]
fn converted() {
    let folder = Folder::with_example("golden-convert");
    let there = ["to-ascii", "batch.bin", "--out", "batch.txt"];
    compare(&folder, &there, 0, "to-ascii.txt");
    assert_eq!(folder.read("batch.txt"), ascii(&paper_batch()));
    let back = folder.run(&["to-ebcdic", "batch.txt", "--out", "back.bin"]);
    assert_eq!(back.status, 0);
    assert_eq!(folder.read("back.bin"), paper_batch());
}

/// A line in which every field of Chart 0-4 is full.
const LINE: [(usize, &str); 25] = [
    (1, "OH"),
    (3, "B-C"),
    (6, "123456789"),
    (15, "D-------------E"),
    (30, "F------------------G"),
    (50, "H-------------I"),
    (65, "01000000101"),
    (76, "01000000202"),
    (87, "01000000303"),
    (98, "2001"),
    (102, "2002"),
    (106, "J"),
    (107, "N"),
    (108, "KY"),
    (110, "L-M"),
    (113, "N---------------------------------O"),
    (148, "P---------------------------------Q"),
    (183, "R-----------------------S"),
    (208, "T-------U"),
    (217, "V-W"),
    (220, "10404"),
    (225, "X"),
    (226, "Y"),
    (227, "Z--------A"),
    (237, "B--C"),
];

/// A last record in which every field of Chart 0-5 is full.
const LAST: [(usize, &str); 12] = [
    (1, "OH"),
    (3, "D-E"),
    (6, "TOTAL    "),
    (15, "F------------------G"),
    (35, "000000000000001"),
    (50, "000000000000002"),
    (65, "01000000303"),
    (76, "01000000404"),
    (87, "01000000505"),
    (98, "01000000606"),
    (109, "H"),
    (240, "I"),
];

/// A line and a last record in which every field of Charts 0-4 and 0-5 is full, so that its first and last column show. The library reads
/// few of these columns.
#[test]
fn collection_file_by_its_charts() {
    let folder = Folder::new("golden-collections");
    folder.write(
        "weekly.bin",
        &[filled(240, &LINE), filled(240, &LAST)].concat(),
    );
    let show = ["show", "collections", "weekly.bin", "--list"];
    compare(&folder, &show, 0, "show-collections.txt");
}
