//! Files of lines: --lines in the place of --ascii, and what is told of other characters.

mod common;

use common::*;

/// Records in ASCII as lines with an end, their last spaces left out where asked for.
fn lines(bytes: &[u8], width: usize, end: &str, is_trimmed: bool) -> Vec<u8> {
    let text = ascii(bytes);
    let line = |record: &[u8]| {
        let record = if is_trimmed {
            record.trim_ascii_end()
        } else {
            record
        };
        [record, end.as_bytes()].concat()
    };
    text.chunks(width).flat_map(line).collect()
}

fn checked(folder: &Folder, more: &[&str]) -> Ran {
    folder.run(&with(&CHECK, &with(&["--new"], more)))
}

#[test]
fn batches_of_lines() {
    let folder = Folder::with_example("lines-batch");
    let wanted = checked(&folder, &[]).out;
    for end in ["\n", "\r\n"] {
        for is_trimmed in [false, true] {
            let text = lines(&paper_batch(), 245, end, is_trimmed);
            folder.write("batch.bin", &text);
            let ran = checked(&folder, &["--lines"]);
            assert_eq!((ran.status, &ran.out), (1, &wanted), "{ran:?}");
            // the last end may be missing
            folder.write("batch.bin", &text[..text.len() - end.len()]);
            assert_eq!(checked(&folder, &["--lines"]).out, wanted);
        }
    }
    // what is written has line ends too
    let ran = folder.run(&with(&APPLY, &["--new", "--lines"]));
    assert_eq!(ran.status, 1, "{ran:?}");
    assert_eq!(
        folder.read("rejects.bin"),
        lines(&paper_rejects(), 245, "\n", false)
    );
    assert_eq!(folder.read("master.bin"), paper_row());
    let ran = folder.run(&["show", "rejects", "rejects.bin", "--lines"]);
    assert!(ran.status == 0 && ran.out.contains("SMYTH"), "{ran:?}");
}

/// Empty lines that may stand at the end.
const EMPTY: [&str; 5] = ["\n", "\n\n", "\r\n", "\r\n\r\n\n", "\r"];

#[test]
fn empty_lines_at_the_end_of_a_batch() {
    let folder = Folder::with_example("lines-empty");
    let wanted = checked(&folder, &[]).out;
    let text = lines(&paper_batch(), 245, "\n", true);
    let whole = lines(&paper_batch(), 245, "\n", false);
    for more in EMPTY {
        folder.write("batch.bin", &[&text, more.as_bytes()].concat());
        folder.write("locals.bin", more.as_bytes());
        let ran = checked(&folder, &["--lines"]);
        assert_eq!((ran.status, &ran.out), (1, &wanted), "{ran:?}");
        let control = "control batch.bin --out made --lines --force";
        leave(&folder, &[(control, 0, "made", whole.clone())]);
    }
    // one in the middle is a record of spaces
    let middle = String::from_utf8(text).expect("it is text");
    let middle = middle.replacen('\n', "\n\n", 1);
    folder.write("batch.bin", middle.as_bytes());
    let ran = folder.run(&words("show batch batch.bin --lines"));
    assert!(ran.out.starts_with("records 1 to 4 of 4"), "{}", ran.out);
}

#[test]
fn empty_lines_at_the_end_of_other_files() {
    for more in EMPTY {
        let folder = Folder::new("lines-empty-others");
        let with_more = |bytes: &[u8], width: usize, end: &str| {
            [&lines(bytes, width, end, true), more.as_bytes()].concat()
        };
        folder.write("weekly.txt", &with_more(&weekly(), 240, "\r\n"));
        folder.write("contacts.txt", &with_more(&contact_file(), 220, "\n"));
        folder.write("two.bin", &two_rows("00"));
        let contacts = "contacts table.bin contacts.txt --new --lines";
        let post = "post two.bin weekly.txt --lines";
        let commands = [
            (contacts, 1, "table.bin", contact_table()),
            (post, 1, "two.bin", two_rows_posted()),
        ];
        leave(&folder, &commands);
    }
}

/// Sees that each of these commands ends with a status and leaves a file.
fn leave(folder: &Folder, commands: &[(&str, i32, &str, Vec<u8>)]) {
    for (command, status, file, bytes) in commands {
        let ran = folder.run(&words(command));
        assert_eq!(ran.status, *status, "{command}: {ran:?}");
        assert!(folder.read(file) == *bytes, "{command}");
    }
}

#[test]
fn other_files() {
    let folder = Folder::new("lines-files");
    folder.write("two.bin", &two_rows("00"));
    folder.write("weekly.txt", &lines(&weekly(), 240, "\r\n", true));
    folder.write("contacts.txt", &lines(&contact_file(), 220, "\n", true));
    let codes = b"001\n007\n".to_vec();
    let commands = [
        (
            "post two.bin weekly.txt --lines",
            1,
            "two.bin",
            two_rows_posted(),
        ),
        (
            "contacts table.bin contacts.txt --new --lines",
            1,
            "table.bin",
            contact_table(),
        ),
        (
            "codes table.bin --state OH --out codes.txt --lines",
            0,
            "codes.txt",
            codes,
        ),
    ];
    leave(&folder, &commands);
    let show = folder.run(&["show", "master", "two.bin", "--lines"]);
    assert_eq!(show.status, 3);
}

#[test]
fn other_commands_over_batches() {
    let folder = Folder::new("lines-batches");
    folder.write("batch.txt", &lines(&paper_batch(), 245, "\n", true));
    let split = folder.run(&words("split batch.txt --at 1 --out part --lines"));
    assert_eq!(split.status, 0);
    let export = folder.run(&words("export batch batch.txt --lines --out batch.csv"));
    assert_eq!(export.status, 0);
    let whole = lines(&paper_batch(), 245, "\n", false);
    let commands = [
        (
            "merge part001 part002 --out merged.txt --lines",
            0,
            "merged.txt",
            whole.clone(),
        ),
        (
            "control batch.txt --out control.txt --lines",
            0,
            "control.txt",
            whole.clone(),
        ),
        (
            "build batch.csv --out built.txt --lines",
            0,
            "built.txt",
            whole,
        ),
    ];
    leave(&folder, &commands);
}

#[test]
fn what_is_told_of_other_characters() {
    let folder = Folder::with_example("lines-hints");
    let text = ascii(&paper_batch());
    let told = |bytes: &[u8], option: &str| {
        folder.write("batch.bin", bytes);
        let ran = checked(&folder, &[option]);
        assert!([2, 3].contains(&ran.status), "{ran:?}");
        ran.err.replace("\n    ", " ")
    };
    let changed = |place: usize, bytes: &[u8]| {
        let mut other = text.clone();
        other.splice(place..place + bytes.len(), bytes.iter().copied());
        other
    };
    for (bytes, option, words) in [
        (changed(245 + 30, b"m"), "--ascii", "byte 275 (record 2, column 31) is hexadecimal 6D, a lower case letter: use upper case"),
        (changed(30, "Ü".as_bytes()), "--ascii", "byte 30 (record 1, column 31) is hexadecimal C3, the character 'Ü' in UTF-8: use A to Z"),
        ([b"\xEF\xBB\xBF", &text[..]].concat(), "--ascii", "byte 0 (record 1, column 1) is hexadecimal EF, a byte order mark (UTF-8)"),
        ([b"\xFF\xFE", &text[..]].concat(), "--ascii", "a byte order mark (UTF-16)"),
        (paper_batch(), "--ascii", "no ASCII byte: is the file in EBCDIC already?"),
        (lines(&paper_batch(), 245, "\n", false), "--ascii", "byte 245 is hexadecimal 0A, a line feed: --lines takes files of lines"),
        ([b"\xEF\xBB\xBF", &lines(&paper_batch(), 245, "\n", true)[..]].concat(), "--lines", "begins with a byte order mark (UTF-8)"),
        (changed(245, b"X"), "--lines", "line 1 has 735 characters, and a record 245; a file without line ends takes --ascii"),
        (lines(&paper_batch(), 245, "\n", false).to_ascii_lowercase(), "--lines", "byte 0 (record 1, column 1) is hexadecimal 6F, a lower case letter"),
    ] {
        let err = told(&bytes, option);
        assert!(err.contains(words), "{words}: {err}");
    }
}

/// What to do next has no option that was given.
#[test]
fn hints_that_were_followed() {
    let folder = Folder::with_example("lines-followed");
    let details = &paper_batch()[..490];
    for (option, bytes, hints) in [
        ("--wait 0", details.to_vec(), [true, true]),
        ("--ascii", ascii(details), [false, false]),
        ("--lines", lines(details, 245, "\n", false), [false, false]),
    ] {
        folder.write("batch.bin", &bytes);
        let more = words(option);
        let ran = checked(&folder, &more);
        assert_eq!(ran.status, 2, "{ran:?}");
        assert!(
            ran.err.contains("`fantanolive control` puts"),
            "{}",
            ran.err
        );
        let told = ["--ascii", "--lines"].map(|hint| ran.err.contains(hint));
        assert_eq!(told, hints, "{}", ran.err);
    }
    // a file in ASCII may be one of lines
    folder.write("batch.bin", &ascii(&paper_batch()[..500]));
    let ran = checked(&folder, &["--ascii"]);
    assert!(ran.err.contains("; --lines"), "{}", ran.err);
}
