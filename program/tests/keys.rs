//! Many keys looked up together: from a file and as arguments, in any order, each answered.

mod common;

use common::*;

/// Rows for these keys, in order; the second is deleted.
fn master() -> Vec<u8> {
    let mut deleted = row("OH234567891A", "00000000", "00");
    deleted[195] = 0xC4;
    [
        row("OH123456789N", "00000025", "00"),
        deleted,
        row("OH345678912A", "00000100", "00"),
    ]
    .concat()
}

fn folder(name: &str) -> Folder {
    let folder = Folder::new(name);
    folder.write("master.bin", &master());
    folder
}

/// The `answer` and `row` members of a report, in order: a row, or what is said in its place.
fn answers(report: &str) -> Vec<String> {
    let behind = |part: &str, front: &str| {
        let at = part.find(front)? + front.len();
        let end = part[at..].find([',', '"', '}'])?;
        Some(part[at..at + end].to_string())
    };
    let answer = |part: &str| behind(part, "\"row\":").or_else(|| behind(part, "\"answer\":\""));
    let parts = report.split("{\"line\":").skip(1);
    let given = report.split("{\"argument\":").skip(1);
    parts.chain(given).filter_map(answer).collect()
}

#[test]
fn keys_in_any_order_with_repeats() {
    let folder = folder("keys-order");
    let keys = [
        "OH345678912A",
        "OH123456789N",
        "OH200110001A",
        "OH345678912A",
        "OH234567891A",
    ];
    let wanted = ["3", "1", "not found", "3", "2"];
    let given = folder.run(&with(&["find", "master.bin", "--json"], &keys));
    assert_eq!(given.status, 6, "{given:?}");
    assert_eq!(answers(&given.out), wanted);
    folder.write("keys.txt", keys.join("\n").as_bytes());
    let read = folder.run(&["find", "master.bin", "--json", "--keys", "keys.txt"]);
    assert_eq!(read.status, 6, "{read:?}");
    assert_eq!(answers(&read.out), wanted);
    assert_eq!(
        given.out.replace("\"argument\":", "\"line\":"),
        read.out,
        "arguments and lines"
    );
    // in rising order: OH1.. equals row 1; OH2001.. passes it and is below row 2; OH2345.. equals row 2; OH3.. passes it and equals row 3
    let counts = "\"keys\":5,\"found\":4,\"not_found\":1,\"refused\":0,\"comparisons\":6,";
    assert!(read.out.contains(counts), "{}", read.out);
}

#[test]
fn each_answer_is_that_of_find() {
    let folder = folder("keys-each");
    let keys = ["OH123456789N", "OH234567891A", "OH345678912A"];
    let all = folder.run(&with(&["find", "master.bin"], &keys));
    assert_eq!(all.status, 0, "{all:?}");
    for key in keys {
        let one = folder.run(&["find", "master.bin", key]);
        assert_eq!(one.status, 0);
        assert!(all.out.contains(&one.out), "{key}: {}", all.out);
    }
    let end = "\nfind: all keys\n  keys                  3\n    of which found      3\n";
    assert!(all.out.contains(end), "{}", all.out);
}

#[test]
fn keys_that_are_none_are_told_and_the_others_answered() {
    let folder = folder("keys-none");
    let keys = [
        "OH345678912A",
        "OH12345678N",
        "OH000456789N",
        "oh123456789x",
        "OH123456789N",
    ];
    let given = folder.run(&with(&["find", "master.bin"], &keys));
    assert_eq!(given.status, 2, "{given:?}");
    for argument in 2..=4 {
        let told = format!(
            "find: refused 14: key not of twelve bytes, or its state, SSN or case type wrong\n  argument  {argument}\n"
        );
        assert!(given.out.contains(&told), "{}", given.out);
    }
    assert_eq!(given.out.matches("find: found\n").count(), 2);
    assert_eq!(given.err, "");
    folder.write("keys.txt", keys.join("\r\n").as_bytes());
    let read = folder.run(&["find", "master.bin", "--keys", "keys.txt"]);
    assert_eq!(read.status, 2);
    assert!(read.out.contains("  line     2\n"), "{}", read.out);
}

#[test]
fn no_rows_and_masters_that_are_refused() {
    let folder = folder("keys-refused");
    let keys = ["OH123456789N", "OH234567891A"];
    let mut unsound = master();
    unsound[200] = 0;
    folder.write("unsound.bin", &unsound);
    folder.write("short.bin", &master()[..599]);
    let disordered = [&master()[..400], &master()[..200]].concat();
    folder.write("disordered.bin", &disordered);
    for (master, words) in [
        (
            "unsound.bin",
            "row 2 of 3 is the first that is not sound by itself",
        ),
        (
            "disordered.bin",
            "row 3 of 3 is the first whose key is not above the one before",
        ),
        ("short.bin", "refused 3: "),
    ] {
        let ran = folder.run(&with(&["find", master], &keys));
        assert_eq!(ran.status, 2, "{ran:?}");
        assert_eq!(ran.out, "");
        assert!(
            ran.err.replace("\n    ", " ").contains(words),
            "{}",
            ran.err
        );
    }
    folder.write("empty.txt", b"\n\r\n\n");
    for (file, words) in [
        ("empty.txt", "empty.txt: has no key"),
        ("no.txt", "no.txt: can't be read: no such file"),
        (".", "can't be read: it is a folder"),
    ] {
        let ran = folder.run(&["find", "master.bin", "--keys", file]);
        assert_eq!(ran.status, 3, "{ran:?}");
        assert!(ran.err.contains(words), "{}", ran.err);
    }
}

/// What of a key is wrong, without the SSN.
#[test]
fn parts_that_are_wrong() {
    let folder = folder("keys-parts");
    for (key, words) in [
        ("XX123456789N", "key XX*********N: its state 'XX' is none"),
        (
            "OH123456789X",
            "key OH*****6789X: its case type 'X' is none",
        ),
        (
            "OH000456789N",
            "key OH*********N: its SSN is none: area 000",
        ),
        ("OH12345678N", "the key: it has 11 characters, and not 12"),
    ] {
        let one = folder.run(&["find", "master.bin", key]);
        assert_eq!(one.status, 2, "{one:?}");
        assert!(one.err.contains(&format!("\n  {words}\n")), "{}", one.err);
        let both = folder.run(&["find", "master.bin", key, "OH123456789N"]);
        assert!(both.out.contains(&format!("\n  {words}\n")), "{}", both.out);
        let json = folder.run(&["find", "master.bin", key, key, "--json"]);
        assert!(json.out.contains(&format!("\"fault\":\"{words}\"")));
    }
    let text = "\u{feff}OH123456789N\n  OH123456789N\noh-123-45-6789-n\n";
    folder.write("keys.txt", text.as_bytes());
    let read = folder.run(&["find", "master.bin", "--keys", "keys.txt"]);
    for words in [
        "  line     1\n  the key: a byte order mark stands before it: save the file as plain ASCII\n",
        "  line     2\n  the key: it begins with a space, which is to go\n",
    ] {
        assert!(read.out.contains(words), "{}", read.out);
    }
    assert_eq!(read.out.matches("find: found\n").count(), 1);
}

#[test]
fn files_are_only_read() {
    let folder = folder("keys-read");
    folder.write("keys.txt", b"OH123456789N\nOH345678912A\n");
    assert_eq!(
        folder
            .run(&["find", "master.bin", "--keys", "keys.txt"])
            .status,
        0
    );
    assert_eq!(folder.names(), ["keys.txt", "master.bin"]);
    assert_eq!(folder.read("master.bin"), master());
}
