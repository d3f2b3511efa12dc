//! Journals: what apply writes, what take-back gives, and what keeps a batch from being taken back from another master.

mod common;

use std::fs;
use std::os::unix::fs::PermissionsExt;

use common::*;

const BACK: [&str; 3] = ["take-back", "two.bin", "journal.bin"];

fn folder(name: &str) -> Folder {
    let folder = Folder::with_example(name);
    folder.write("two.bin", &two_rows("00"));
    folder.write("second.bin", &second_batch());
    folder
}

/// The same after the batch.
fn applied(name: &str) -> Folder {
    let folder = folder(name);
    let ran = folder.run(&JOURNALED);
    assert_eq!(ran.status, 0, "{ran:?}");
    folder
}

/// What a run says on standard error, in one line.
fn told(ran: &Ran) -> String {
    let words: Vec<&str> = ran.err.split_whitespace().collect();
    words.join(" ")
}

/// A run that changes nothing but a lock file for a moment.
fn unchanged(folder: &Folder, arguments: &[&str], status: i32, words: &str) {
    let files = |folder: &Folder| {
        let names = folder.names().into_iter();
        let with_bytes = names.map(|name| (folder.read(&name), name));
        with_bytes.collect::<Vec<_>>()
    };
    let before = files(folder);
    let ran = folder.run(arguments);
    assert_eq!(ran.status, status, "{arguments:?}: {ran:?}");
    assert!(told(&ran).contains(words), "{arguments:?}: {}", told(&ran));
    assert!(files(folder) == before, "{arguments:?} changed a file");
}

/// What became of the runs by `log`, in their order.
fn outcomes(folder: &Folder) -> Vec<String> {
    let ran = folder.run(&["log", "two.bin"]);
    assert_eq!(ran.status, 0, "{ran:?}");
    let lines = ran.out.lines().filter(|line| line.starts_with("20"));
    let outcome = |line: &str| line.rsplit(": ").next().expect("a part").to_string();
    lines.map(outcome).collect()
}

#[test]
fn a_journal_beside_what_apply_writes() {
    let (folder, plain) = (applied("journal-written"), folder("journal-plain"));
    let ran = plain.run(&JOURNALED[..9]);
    assert_eq!(ran.status, 0, "{ran:?}");
    for name in ["two.bin", "rejects.bin"] {
        assert_eq!(folder.read(name), plain.read(name), "{name}");
    }
    assert!(!plain.has("journal.bin"));
    assert_eq!(folder.read("two.bin"), second_rows());
    assert_eq!(folder.read("journal.bin"), second_journal());
    let mode = |name: &str| {
        let about = fs::metadata(folder.path(name)).expect("it is there");
        about.permissions().mode() & 0o777
    };
    assert_eq!(mode("journal.bin"), 0o600);
    fs::remove_file(folder.path("journal.bin")).expect("it was there");
    folder.write("two.bin", &two_rows("00"));
    let ran = folder.run(&with(&JOURNALED, &["--mode", "640", "--force"]));
    assert_eq!(ran.status, 0, "{ran:?}");
    assert_eq!(mode("journal.bin"), 0o640);
}

#[test]
fn a_check_takes_the_same_arguments() {
    let folder = folder("journal-check");
    let mut check = JOURNALED;
    check[0] = "check";
    let ran = folder.run(&check);
    assert_eq!(ran.status, 0, "{ran:?}");
    assert!(
        ran.out.contains("  journal bytes        206\n"),
        "{}",
        ran.out
    );
    assert!(!folder.has("journal.bin") && !folder.has("rejects.bin"));
}

#[test]
fn the_old_master_to_the_byte() {
    let folder = applied("journal-back");
    let dry = folder.run(&with(&BACK, &["--dry-run"]));
    assert_eq!(dry.status, 0, "{dry:?}");
    assert!(dry
        .out
        .starts_with("take-back: would be carried out; nothing is written\n"));
    assert_eq!(folder.read("two.bin"), second_rows());
    let json = folder.run(&with(&BACK, &["--dry-run", "--json"]));
    for part in [
        "\"rows_before\":3,\"rows\":2,\"rows_changed_back\":1,\"rows_taken_out\":1,",
        "\"changed_back\":[{\"row\":1,\"key\":\"OH*****6789N\",\"fields\":[{\"field\":\"Arrearage Amount\",\"was\":\"00000030\",\"becomes\":\"00000025\"}]}]",
        "\"taken_out\":[{\"row\":2,\"key\":\"OH*****7891A\"}],\"put_in\":[]",
    ] {
        assert!(json.out.contains(part), "{}", json.out);
    }
    assert_eq!(folder.run(&BACK).status, 0);
    assert_eq!(folder.read("two.bin"), two_rows("00"));
    assert_eq!(outcomes(&folder), ["taken back", "carried out"]);
    let log = String::from_utf8(folder.read("two.bin.log")).expect("a log is text");
    let lines: Vec<&str> = log.lines().collect();
    assert!(lines[0].contains("\"journal\":{\"kind\":\"journal\",\"name\":\"journal.bin\","));
    let counts =
        "\"counts\":{\"rows_before\":3,\"rows\":2,\"rows_changed_back\":1,\"rows_taken_out\":1}}";
    assert!(lines[1].ends_with(counts), "{}", lines[1]);
    assert!(!log.contains("123456789"));
}

/// A posting between the batch and its take-back: the batch is out, and may be applied again.
#[test]
fn what_was_taken_back_anyway_may_be_applied_again() {
    let folder = applied("journal-anyway");
    let last = [
        line("987654321", "A", "00000000100", "00000000000"),
        total(0, 1),
    ];
    folder.write("last.bin", &last.concat());
    assert_eq!(folder.run(&["post", "two.bin", "last.bin"]).status, 0);
    assert_eq!(folder.run(&BACK).status, 3);
    assert_eq!(folder.run(&with(&BACK, &["--anyway"])).status, 0);
    let log = folder.run(&["log", "two.bin"]).out;
    let became: Vec<&str> = log
        .lines()
        .filter(|line| line.starts_with("20"))
        .filter_map(|line| line.split("  ").nth(1))
        .collect();
    let wanted = [
        "apply: taken back",
        "post: carried out",
        "take-back: carried out",
    ];
    assert_eq!(became, wanted);
    let check = [&["check"][..], &JOURNALED[1..7], &["--quiet"]].concat();
    assert_eq!(folder.run(&check).out, "check: ready to send\n");
    assert_eq!(folder.run(&with(&JOURNALED, &["--force"])).status, 0);
    // the posting is in the master still
    assert_eq!(folder.run(&["post", "two.bin", "last.bin"]).status, 3);
    assert_eq!(folder.run(&check).status, 3);
}

#[test]
fn what_was_taken_back_may_be_applied_again() {
    let folder = applied("journal-again");
    // applied, so not again
    let again = with(&JOURNALED, &["--force"]);
    unchanged(&folder, &again, 3, "was applied to two.bin before");
    assert_eq!(folder.run(&BACK).status, 0);
    let check = [&["check"][..], &JOURNALED[1..7]].concat();
    assert!(!folder.run(&check).out.contains("applied before"));
    assert_eq!(folder.run(&again).status, 0);
    assert_eq!(folder.read("two.bin"), second_rows());
    assert_eq!(folder.run(&BACK).status, 0);
    assert_eq!(folder.read("two.bin"), two_rows("00"));
    let wanted = ["taken back", "carried out", "taken back", "carried out"];
    assert_eq!(outcomes(&folder), wanted);
}

#[test]
fn a_first_batch_leaves_no_rows() {
    let folder = folder("journal-first");
    let first = with(&APPLY, &["--new", "--journal", "journal.bin"]);
    assert_eq!(folder.run(&first).status, 1);
    let ran = folder.run(&["take-back", "master.bin", "journal.bin"]);
    assert_eq!(ran.status, 0, "{ran:?}");
    assert_eq!(folder.read("master.bin"), b"");
    assert_eq!(folder.run(&with(&first, &["--force"])).status, 1);
    assert_eq!(folder.read("master.bin"), paper_row());
}

#[test]
fn a_batch_is_taken_back_once() {
    let folder = applied("journal-twice");
    assert_eq!(folder.run(&BACK).status, 0);
    unchanged(&folder, &BACK, 2, "refused 26: ");
    unchanged(&folder, &BACK, 2, "journal.bin: 206 bytes; it begins with the row counts 2 before the batch and 3 after it two.bin: 2 rows");
    unchanged(
        &folder,
        &BACK,
        2,
        "two.bin is what it was before the batch of 20",
    );
    // a batch that adds no row: the call would take its journal twice, and change nothing
    let m = record(&[
        (1, "OH"),
        (6, "123456789"),
        (30, "SMITH"),
        (65, "00000030"),
        (73, "MN"),
    ]);
    folder.write("second.bin", &[m, control(0, 1, 0, 30)].concat());
    assert_eq!(folder.run(&with(&JOURNALED, &["--force"])).status, 0);
    assert_eq!(folder.run(&BACK).status, 0);
    unchanged(
        &folder,
        &BACK,
        3,
        "there is nothing to take back; --anyway does it",
    );
    let ran = folder.run(&with(&BACK, &["--anyway"]));
    assert_eq!(ran.status, 0, "{ran:?}");
    assert!(ran.out.contains("  rows changed back  0\n"), "{}", ran.out);
    assert_eq!(folder.read("two.bin"), two_rows("00"));
}

#[test]
fn a_master_that_was_changed_since() {
    let folder = applied("journal-since");
    folder.write("weekly.bin", &weekly());
    assert_eq!(folder.run(&["post", "two.bin", "weekly.bin"]).status, 1);
    for more in [&[][..], &["--dry-run"]] {
        unchanged(
            &folder,
            &with(&BACK, more),
            3,
            "two.bin was changed since the batch of 20",
        );
    }
    let ran = folder.run(&with(&BACK, &["--anyway"]));
    assert_eq!(ran.status, 0, "{ran:?}");
    // the posted row of the batch is the old one, the other keeps what was posted to it
    let kept = row("OH987654321A", "00000100", "50");
    assert_eq!(
        folder.read("two.bin"),
        [&two_rows("00")[..200], &kept].concat()
    );
    let wanted = ["taken back", "carried out", "carried out"];
    assert_eq!(outcomes(&folder), wanted);
}

#[test]
fn damaged_journals() {
    let folder = applied("journal-damaged");
    let journal = second_journal();
    let damaged = [
        vec![],
        journal[..205].to_vec(),
        [&journal[..], &[0]].concat(),
        [&[0x82, 0x00][..], &journal[1..]].concat(),
        vec![0x80; 20],
        vec![0; 14_000_000],
    ];
    for bytes in damaged {
        folder.write("journal.bin", &bytes);
        unchanged(&folder, &BACK, 2, "refused 26: ");
        unchanged(&folder, &BACK, 2, "two.bin: 3 rows the apply of 20");
        unchanged(&folder, &BACK, 2, "did not write this journal");
    }
    // the row that is put back is no row, or stands behind the next
    for (place, bytes) in [(4, [0, 0]), (4 + 2, [0xF9, 0xF9])] {
        let mut changed = journal.clone();
        changed[place..place + 2].copy_from_slice(&bytes);
        folder.write("journal.bin", &changed);
        unchanged(&folder, &BACK, 2, "refused 26: ");
    }
    // another row that is sound: the call can't see that it is not the old one, but the log can
    let mut changed = journal.clone();
    changed[4 + 72] = 0xF9;
    folder.write("journal.bin", &changed);
    unchanged(&folder, &BACK, 3, "did not write this journal; --anyway");
}

#[test]
fn other_masters() {
    let folder = applied("journal-others");
    folder.write("journal.bin", &second_journal());
    folder.write("other.bin", &paper_row());
    let other = ["take-back", "other.bin", "journal.bin"];
    unchanged(&folder, &other, 2, "other.bin: 1 row");
    folder.write("short.bin", &second_rows()[..599]);
    unchanged(
        &folder,
        &["take-back", "short.bin", "journal.bin"],
        2,
        "refused 3: ",
    );
    let mut unsound = second_rows();
    unsound[200] = 0;
    folder.write("unsound.bin", &unsound);
    let unsound = ["take-back", "unsound.bin", "journal.bin"];
    unchanged(&folder, &unsound, 2, "row 2 of 3 is the first");
    folder.write("empty.bin", b"");
    let empty = ["take-back", "empty.bin", "journal.bin"];
    unchanged(&folder, &empty, 3, "is empty: it may have been cut off");
}

#[test]
fn journals_that_can_not_be_made() {
    let folder = folder("journal-not-made");
    folder.write("there.bin", b"x");
    let with_journal = |name| {
        let mut arguments = JOURNALED;
        arguments[10] = name;
        arguments
    };
    for (name, words) in [
        ("there.bin", "is there already; --force replaces it"),
        ("two.bin", "can't be written"),
        ("two.bin.log", "can't be written"),
        ("second.bin", "can't be written"),
        ("rejects.bin", "can't be written"),
        ("no-folder/journal.bin", "no such file or folder"),
        ("-", "--journal can't be -"),
    ] {
        unchanged(&folder, &with_journal(name), 3, words);
    }
    assert!(!folder.has("rejects.bin"));
    let forced = with(&with_journal("two.bin"), &["--force"]);
    unchanged(&folder, &forced, 3, "can't be written");
    let ran = folder.run(&with(&with_journal("there.bin"), &["--force"]));
    assert_eq!(ran.status, 0, "{ran:?}");
    assert_eq!(folder.read("there.bin"), second_journal());
    // the journal is no place for its own take-back to write to
    let own = ["take-back", "two.bin", "two.bin"];
    unchanged(&folder, &own, 3, "can't be written");
}
