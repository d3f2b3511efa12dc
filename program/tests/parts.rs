//! split: where a batch is cut and where not, the parts with their control records, and that they do what the batch does.

mod common;

use std::fs;
use std::os::unix::fs::PermissionsExt;
use std::path::Path;

use common::*;

/// A detail of OH with a type, its SSN, case type, name and dollars.
fn detail(kind: &str, ssn: &str, case_type: &str, name: &str, dollars: &str) -> Vec<u8> {
    record(&[
        (1, "OH"),
        (6, ssn),
        (30, name),
        (50, "JOHN"),
        (65, dollars),
        (73, kind),
        (74, case_type),
    ])
}

/// M; B and M of another key; A of a TANF case; D.
fn details() -> [Vec<u8>; 5] {
    [
        detail("M", "123456789", "N", "SMITH", "00000100"),
        detail("B", "987654321", "N", "BROWN", "00000700"),
        detail("M", "987654321", "N", "BROWN", "00000200"),
        detail("A", "987654321", "A", "BROWN", "00001400"),
        detail("D", "123456789", "N", "SMITH", "00000900"),
    ]
}

/// The whole batch, and its parts by hand.
fn batch() -> Vec<u8> {
    [details().concat(), control(1, 4, 1400, 300)].concat()
}

fn three_parts() -> [Vec<u8>; 3] {
    let all = details();
    [
        [&all[0][..], &control(0, 1, 0, 100)].concat(),
        [&all[1][..], &all[2], &control(0, 2, 0, 200)].concat(),
        [&all[3][..], &all[4], &control(1, 1, 1400, 0)].concat(),
    ]
}

fn folder(name: &str) -> Folder {
    let folder = Folder::with_master(name);
    folder.write("batch.bin", &batch());
    let rows = [
        row("OH123456789N", "00000025", "00"),
        row("OH987654321N", "00000100", "00"),
    ];
    folder.write("master.bin", &rows.concat());
    folder
}

const SPLIT: [&str; 4] = ["split", "batch.bin", "--out", "part"];

const PARTS: [&str; 3] = ["part001", "part002", "part003"];

/// The text of a file of tests/expected.
fn expected(name: &str) -> String {
    let folder = Path::new(env!("CARGO_MANIFEST_DIR")).join("tests/expected");
    let text = fs::read_to_string(folder.join(name)).expect("it is there");
    text.replace("VERSION", fantanolive::VERSION)
}

fn see_parts(folder: &Folder) {
    for (name, bytes) in PARTS.iter().zip(three_parts()) {
        assert_eq!(folder.read(name), bytes, "{name}");
    }
    assert!(!folder.has("part004"));
}

#[test]
fn a_batch_in_three_parts() {
    for (way, status) in [
        (&["--records", "2"], "split.txt"),
        (&["--at", "1,3"], "split.txt"),
    ] {
        let folder = folder("parts-three");
        let ran = folder.run(&with(&SPLIT, way));
        assert_eq!(
            (ran.out.as_str(), ran.err.as_str()),
            (&*expected(status), "")
        );
        assert_eq!(ran.status, 0);
        see_parts(&folder);
        let json = folder.run(&with(&SPLIT, &["--at", "1,3", "--json", "--force"]));
        assert_eq!(json.out, expected("split.json"));
        see_parts(&folder);
    }
}

#[test]
fn in_ascii() {
    let folder = folder("parts-ascii");
    folder.write("batch.bin", &ascii(&batch()));
    let ran = folder.run(&with(&SPLIT, &["--records", "2", "--ascii"]));
    assert_eq!((ran.status, ran.out), (0, expected("split.txt")));
    for (name, bytes) in PARTS.iter().zip(three_parts()) {
        assert_eq!(folder.read(name), ascii(&bytes), "{name}");
    }
}

#[test]
fn keys_that_stop_a_cut() {
    let folder = folder("parts-stopped");
    let before = folder.names();
    for (way, text) in [
        (["--at", "2"], "split-stopped.txt"),
        (["--at", "1,2,4"], "split-stopped.txt"),
        (["--records", "1"], "split-longer.txt"),
    ] {
        let ran = folder.run(&with(&SPLIT, &way));
        assert_eq!(
            (ran.status, ran.out.as_str(), ran.err),
            (3, "", expected(text))
        );
        assert_eq!(folder.names(), before);
    }
    let ran = folder.run(&with(&SPLIT, &["--at", "2", "--full"]));
    assert!(ran.err.contains("OH987654321N"), "{}", ran.err);
    let ran = folder.run(&with(&SPLIT, &["--at", "2", "--json"]));
    assert_eq!((ran.status, ran.err.as_str()), (3, ""));
    assert!(ran.out.contains("\"outcome\":\"failed\",\"status\":3"));
    let note = "\"notes\":[\"behind record 2: OH*****4321N has records from 2 to 3";
    assert!(ran.out.contains(note), "{}", ran.out);
}

#[test]
fn a_key_is_state_ssn_and_case_type_and_a_b_may_be_faulty() {
    let folder = folder("parts-keys");
    let b = detail("B", "123456789", "N", "", "");
    let m = |ssn, case_type| detail("M", ssn, case_type, "SMITH", "");
    for (other, is_stopped) in [
        (m("123456789", "N"), true),
        (m("123456789", "A"), false),
        (m("123456780", "N"), false),
        (b.clone(), true),
    ] {
        let tanf = u64::from(other[73] == 0xC1);
        let end = control(tanf, 2 - tanf, 0, 0);
        for (one, next) in [(&b, &other), (&other, &b)] {
            folder.write("batch.bin", &[&one[..], next, &end].concat());
            let ran = folder.run(&with(&SPLIT, &["--at", "1", "--force"]));
            assert_eq!(ran.status, if is_stopped { 3 } else { 0 }, "{ran:?}");
        }
    }
}

/// What a master and the reject files are after batches, one behind the other.
fn applied(batches: &[&str], master: &[u8], name: &str) -> (Vec<u8>, Vec<u8>) {
    let folder = folder(name);
    folder.write("master.bin", master);
    for (file, bytes) in PARTS.iter().zip(three_parts()) {
        folder.write(file, &bytes);
    }
    let mut rejects = Vec::new();
    for batch in batches {
        let mut apply = APPLY;
        apply[2] = batch;
        let ran = folder.run(&with(&apply, &["--force"]));
        assert!(ran.status < 2, "{ran:?}");
        let file = folder.read("rejects.bin");
        rejects.extend_from_slice(&file[..file.len() - 245]);
    }
    (folder.read("master.bin"), rejects)
}

#[test]
fn the_parts_do_what_the_batch_does() {
    let first = row("OH123456789N", "00000025", "00");
    let second = row("OH987654321N", "00000100", "00");
    for master in [first.clone(), second.clone(), [first, second].concat()] {
        let whole = applied(&["batch.bin"], &master, "parts-whole");
        let parts = applied(&PARTS, &master, "parts-applied");
        assert_eq!(whole, parts);
    }
}

#[test]
fn batches_of_none_and_one() {
    let folder = folder("parts-small");
    folder.write("batch.bin", &control(0, 0, 0, 0));
    let ran = folder.run(&with(&SPLIT, &["--records", "1"]));
    assert_eq!(ran.status, 0, "{ran:?}");
    assert!(ran.out.contains("\n1 part\npart 1  no records  TANF"));
    assert_eq!(folder.read("part001"), control(0, 0, 0, 0));
    let one = [&details()[0][..], &control(0, 1, 0, 100)].concat();
    folder.write("batch.bin", &one);
    for most in ["1", "2", "999999999999999999"] {
        let ran = folder.run(&with(&SPLIT, &["--records", most, "--force"]));
        assert_eq!(ran.status, 0, "{ran:?}");
        assert_eq!(folder.read("part001"), one);
    }
}

#[test]
fn command_lines() {
    let folder = folder("parts-arguments");
    let before = folder.names();
    for (more, message) in [
        (&[][..], "give one of --at N,.. and --records N"),
        (&["--at", "1", "--records", "1"], "give one of --at"),
        (&["--records", "0"], "--records wants a number above 0"),
        (&["--records", "x"], "--records wants a number"),
        (&["--at", ""], "--at wants numbers with commas"),
        (&["--at", "1,"], "--at wants numbers with commas"),
        (&["--at", "1 3"], "--at wants numbers with commas"),
        (&["--at", "3,1"], "each number above the one before"),
        (&["--at", "1,1"], "each number above the one before"),
        (&["--at", "0"], "--at 0: the batch has 5 details"),
        (&["--at", "1,5"], "--at 5: the batch has 5 details"),
    ] {
        let ran = folder.run(&with(&SPLIT, more));
        assert_eq!(ran.status, 3, "{more:?}: {ran:?}");
        assert!(ran.err.contains(message), "{more:?}: {}", ran.err);
    }
    let standard = ["split", "batch.bin", "--records", "9", "--out", "-"];
    let ran = folder.run(&standard);
    assert_eq!(ran.status, 3);
    assert!(ran.err.contains("--out can't be -"), "{}", ran.err);
    assert_eq!(folder.names(), before);
}

#[test]
fn batches_that_are_refused() {
    let folder = folder("parts-refused");
    let whole = batch();
    let front = &whole[..5 * 245];
    for (bytes, refusal, note) in [
        (Vec::new(), 5, "batch.bin: the file is empty"),
        (whole[1..].to_vec(), 5, "1,469 bytes"),
        (front.to_vec(), 6, "no CTL in columns 3-5"),
        (
            [front, &control(1, 3, 1400, 300)].concat(),
            7,
            "Total Non-TANF Records (15-23): stated 3, counted 4, difference 1",
        ),
        (
            [front, &control(1, 4, 400, 300)].concat(),
            8,
            "Total TANF Amount (24-34): stated 400, counted 1,400, difference 1,000",
        ),
    ] {
        folder.write("batch.bin", &bytes);
        let before = folder.names();
        let ran = folder.run(&with(&SPLIT, &["--records", "2"]));
        assert_eq!(ran.status, 2, "{ran:?}");
        let told: Vec<&str> = ran.err.split_whitespace().collect();
        let told = told.join(" ");
        assert!(told.contains(&format!("refused {refusal}: ")), "{told}");
        assert!(told.contains(note), "{told}");
        assert_eq!(folder.names(), before);
    }
    for missing in ["no-such.bin", "master.bin/x"] {
        let ran = folder.run(&["split", missing, "--records", "2", "--out", "part"]);
        assert_eq!(ran.status, 3, "{ran:?}");
    }
}

#[test]
fn parts_that_are_there() {
    let folder = folder("parts-there");
    let split = with(&SPLIT, &["--records", "2"]);
    folder.write("part002", b"someone's");
    let ran = folder.run(&split);
    assert_eq!(ran.status, 3);
    assert!(ran.err.contains("part002: is there already; --force"));
    assert!(!folder.has("part001") && !folder.has("part003"));
    assert_eq!(folder.run(&with(&split, &["--force"])).status, 0);
    see_parts(&folder);
    folder.write("part002", &two_rows("00"));
    let ran = folder.run(&with(&split, &["--force"]));
    assert_eq!(ran.status, 3);
    assert!(ran.err.contains("part002: looks like a master"));
    // a part that would be the batch, or another part
    fs::remove_file(folder.path("part002")).expect("it is there");
    fs::hard_link(folder.path("batch.bin"), folder.path("part002")).expect("linked");
    assert_eq!(folder.run(&with(&split, &["--force"])).status, 3);
    assert_eq!(folder.read("batch.bin"), batch());
    fs::remove_file(folder.path("part002")).expect("it is there");
    fs::hard_link(folder.path("part001"), folder.path("part002")).expect("linked");
    let ran = folder.run(&with(&split, &["--force"]));
    assert_eq!(ran.status, 3);
    assert!(ran.err.contains("under the same name"), "{}", ran.err);
}

#[test]
fn access_and_folders() {
    let folder = folder("parts-access");
    let mode = |name: &str| {
        let about = fs::metadata(folder.path(name)).expect("it is there");
        about.permissions().mode() & 0o777
    };
    assert_eq!(folder.run(&with(&SPLIT, &["--at", "1"])).status, 0);
    assert_eq!([mode("part001"), mode("part002")], [0o600, 0o600]);
    let other = ["split", "batch.bin", "--at", "1", "--out", "b.", "--mode"];
    assert_eq!(folder.run(&with(&other, &["640"])).status, 0);
    assert_eq!([mode("b.001"), mode("b.002")], [0o640, 0o640]);
    let ran = folder.run(&["split", "batch.bin", "--at", "1", "--out", "no-folder/b"]);
    assert_eq!(ran.status, 3);
    assert!(ran.err.contains("folder no-folder: no such file"));
}

#[test]
fn more_parts_than_names() {
    let folder = folder("parts-many");
    let one = detail("D", "123456789", "N", "SMITH", "");
    for (details, status) in [(999, 0), (1000, 3)] {
        let end = control(0, details as u64, 0, 0);
        folder.write("batch.bin", &[one.repeat(details), end].concat());
        let ran = folder.run(&with(&SPLIT, &["--records", "1"]));
        assert_eq!(ran.status, status, "{}", ran.err);
        for name in folder
            .names()
            .iter()
            .filter(|name| name.starts_with("part"))
        {
            assert_eq!(status, 0);
            assert_eq!(folder.read(name).len(), 490);
            fs::remove_file(folder.path(name)).expect("it is there");
        }
    }
}

/// Parts of an earlier run behind the last one stop it, or are named.
#[test]
fn files_with_higher_numbers() {
    let folder = folder("parts-higher");
    folder.write("part004", b"x");
    folder.write("part017", b"x");
    let at = with(&SPLIT, &["--at", "1,3"]);
    let before = folder.names();
    let ran = folder.run(&at);
    assert_eq!((ran.status, ran.out.as_str()), (3, ""), "{ran:?}");
    let notes = "  part004 is there, and is no part of this batch\n  part017 is there, and is no part of this batch\n";
    assert!(ran
        .err
        .contains("the batch has 3 parts, and there are files with higher numbers"));
    assert!(ran.err.contains(notes), "{}", ran.err);
    assert_eq!(folder.names(), before);
    let ran = folder.run(&with(&at, &["--force"]));
    assert_eq!(ran.status, 0, "{ran:?}");
    let notes = notes
        .replace("  part", "part")
        .replace("is there", "stays as it is");
    assert!(ran.out.ends_with(&notes), "{}", ran.out);
    let ran = folder.run(&with(&at, &["--force", "--json"]));
    assert!(
        ran.out.contains("\"notes\":[\"part004 stays as it is"),
        "{}",
        ran.out
    );
    assert_eq!(folder.read("part004"), b"x");
}
