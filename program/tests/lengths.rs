//! Files of a wrong length: the remainder in bytes and the likely cause; files beyond the limits, which are not read whole.

mod common;

use std::fs::File;
use std::time::{Duration, Instant};

use common::*;

/// The message of a run, its lines joined.
fn message(folder: &Folder, arguments: &[&str], status: i32) -> String {
    let ran = folder.run(arguments);
    assert_eq!(ran.status, status, "{arguments:?}: {ran:?}");
    assert_eq!(ran.out, "");
    ran.err.replace("\n   ", "").replace("\n", " ")
}

/// The records of a file with something behind each.
fn ended(bytes: &[u8], width: usize, end: &[u8]) -> Vec<u8> {
    let with_end = bytes.chunks(width).map(|record| [record, end].concat());
    with_end.collect::<Vec<_>>().concat()
}

#[test]
fn remainders() {
    let folder = Folder::with_master("lengths-remainders");
    folder.write("batch.bin", &paper_batch()[..734]);
    let text = message(&folder, &CHECK, 2);
    assert!(text.contains("refused 5: "));
    let whole = "batch.bin: 734 bytes: 2 records of 245 bytes and 244 bytes over";
    assert!(text.contains(whole), "{text}");
    assert!(
        text.contains("likely cause: the file was cut off"),
        "{text}"
    );
    folder.write("batch.bin", &paper_batch());
    folder.write("master.bin", &paper_row()[..199]);
    let text = message(&folder, &CHECK, 2);
    let whole = "master.bin: 199 bytes: 0 rows of 200 bytes and 199 bytes over";
    assert!(
        text.contains("refused 3: ") && text.contains(whole),
        "{text}"
    );
    folder.write("master.bin", &paper_row());
    folder.write("locals.bin", &ebcdic("0010"));
    let text = message(&folder, &CHECK, 2);
    let whole = "locals.bin: 4 bytes: 1 code of 3 bytes and 1 byte over";
    assert!(
        text.contains("refused 2: ") && text.contains(whole),
        "{text}"
    );
    folder.write("locals.bin", &[]);
    folder.write("batch.bin", &[]);
    let text = message(&folder, &CHECK, 2);
    assert!(text.contains("refused 5: ") && text.contains("batch.bin: the file is empty"));
}

#[test]
fn line_ends() {
    let folder = Folder::with_master("lengths-line-ends");
    let cases: [(&[u8], &str); 4] = [
        (b"\n", "a line feed (LF) stands behind every record"),
        (b"\r\n", "a carriage return and a line feed (CR LF)"),
        (&[0x15], "an EBCDIC new line (hexadecimal 15)"),
        (&[0x0D, 0x25], "hexadecimal 0D 25"),
    ];
    for (end, words) in cases {
        let lines = ended(&paper_batch(), 245, end);
        folder.write("batch.bin", &lines);
        let text = message(&folder, &CHECK, 2);
        assert!(text.contains("likely cause: line ends: "), "{text}");
        assert!(text.contains(words), "{text}");
        // the last record without its line end
        folder.write("batch.bin", &lines[..lines.len() - end.len()]);
        assert!(message(&folder, &CHECK, 2).contains(words));
    }
    folder.write("weekly.bin", &ended(&weekly(), 240, b"\n"));
    let text = message(&folder, &["post", "master.bin", "weekly.bin"], 2);
    assert!(
        text.contains("refused 22: ") && text.contains("(LF)"),
        "{text}"
    );
    folder.write("contacts.bin", &ended(&contact_file(), 220, b"\r\n"));
    let contacts = ["contacts", "table.bin", "contacts.bin", "--new"];
    let text = message(&folder, &contacts, 2);
    assert!(
        text.contains("refused 18: ") && text.contains("CR LF"),
        "{text}"
    );
    assert!(!folder.has("table.bin"));
}

#[test]
fn line_ends_by_chance_and_short_lines() {
    let folder = Folder::with_master("lengths-lines");
    // 245 records with a line feed each have the length of 246 records
    let detail = &paper_batch()[..245];
    let many: Vec<u8> = (0..245).flat_map(|_| [detail, b"\n"].concat()).collect();
    assert_eq!(many.len() % 245, 0);
    folder.write("batch.bin", &many);
    let text = message(&folder, &CHECK, 2);
    assert!(
        text.contains("refused 6: ") && text.contains("(LF) stands behind"),
        "{text}"
    );
    // lines without the spaces at their ends
    folder.write(
        "batch.bin",
        b"OH   123456789\nOH   987654321 SMITH\nOHCTL\n",
    );
    let text = message(&folder, &CHECK, 2);
    let cause = "likely cause: line ends: 3 lines of other lengths than 245 bytes";
    assert!(
        text.contains("refused 5: ") && text.contains(cause),
        "{text}"
    );
    assert!(text.contains("the file is in ASCII"), "{text}");
}

#[test]
fn files_in_ascii() {
    let folder = Folder::with_master("lengths-ascii");
    let likely = "likely cause: the file is in ASCII; use --ascii";
    folder.write("batch.bin", &ascii(&paper_batch()));
    let text = message(&folder, &CHECK, 2);
    assert!(
        text.contains("refused 6: ") && text.contains(likely),
        "{text}"
    );
    folder.write("batch.bin", &ended(&ascii(&paper_batch()), 245, b"\n"));
    let text = message(&folder, &CHECK, 2);
    assert!(text.contains("(LF)") && text.contains(likely), "{text}");
    let text = message(&folder, &with(&CHECK, &["--ascii"]), 2);
    assert!(text.contains("refused 16: "));
    let place = "batch.bin: byte 245 is hexadecimal 0A, a line feed: --lines takes files of lines";
    assert!(text.contains(place), "{text}");
    // EBCDIC taken for ASCII
    folder.write("batch.bin", &paper_batch());
    let text = message(&folder, &with(&CHECK, &["--ascii"]), 2);
    let place = "byte 0 (record 1, column 1) is hexadecimal D6, no ASCII byte: is the file in EBCDIC already?";
    assert!(text.contains(place), "{text}");
    folder.write("weekly.bin", &ascii(&weekly()));
    let text = message(&folder, &["post", "master.bin", "weekly.bin"], 2);
    assert!(
        text.contains("refused 23: ") && text.contains(likely),
        "{text}"
    );
    // a list in ASCII has the right length
    folder.write("locals.bin", b"001002");
    assert!(message(&folder, &CHECK, 2).contains(likely));
}

#[test]
fn a_wrong_length_is_shown_and_told() {
    let folder = Folder::with_example("lengths-show");
    folder.write("batch.bin", &paper_batch()[..500]);
    let ran = folder.run(&["show", "batch", "batch.bin"]);
    assert_eq!(ran.status, 3);
    assert_eq!(ran.out.lines().count(), 4);
    assert!(ran.err.contains("2 records of 245 bytes and 10 bytes over"));
    let ran = folder.run(&["show", "batch", "batch.bin", "--json"]);
    assert_eq!((ran.status, ran.err.as_str()), (3, ""));
    assert!(ran.out.contains("\"warning\":\"batch.bin: 500 bytes"));
    folder.write("batch.bin", &[]);
    let ran = folder.run(&["show", "batch", "batch.bin"]);
    assert_eq!(
        (ran.status, ran.out.as_str(), ran.err.as_str()),
        (0, "no record: the file has none\n", "")
    );
}

/// Sees that each of these commands is refused by a number with a note.
fn refused(folder: &Folder, commands: &[(&str, u32, &str)]) {
    for (command, refusal, note) in commands {
        let text = message(folder, &words(command), 2);
        let refused = format!("refused {refusal}: ");
        assert!(text.contains(&refused) && text.contains(note), "{text}");
    }
}

#[test]
fn files_beyond_the_limits() {
    let folder = Folder::with_master("lengths-limits");
    let huge = File::create(folder.path("huge.bin")).expect("it can be made");
    huge.set_len(1 << 40).expect("the disk takes holes");
    let start = Instant::now();
    let bytes = "huge.bin: 1,099,511,627,776 bytes: beyond the ";
    let commands = [
        (
            "check huge.bin batch.bin --locals locals.bin --year 2007",
            3,
            bytes,
        ),
        (
            "check master.bin huge.bin --locals locals.bin --year 2007",
            5,
            bytes,
        ),
        (
            "check master.bin batch.bin --locals huge.bin --year 2007",
            2,
            bytes,
        ),
        ("post master.bin huge.bin", 22, bytes),
        ("contacts table.bin huge.bin --new", 18, bytes),
        ("codes huge.bin --state OH --out out.bin", 18, bytes),
        // a device that never ends
        (
            "check master.bin batch.bin --locals /dev/zero --year 2007",
            2,
            "",
        ),
        ("codes /dev/zero --state OH --out out.bin", 18, ""),
    ];
    refused(&folder, &commands);
    let text = message(&folder, &["show", "rejects", "huge.bin"], 3);
    assert!(text.contains(bytes), "{text}");
    assert!(start.elapsed() < Duration::from_secs(20));
}

/// Files with one record more than the library takes: the widths of their records, and how many.
const ONE_ABOVE: [(&str, u64, u64); 4] = [
    ("rows", 200, 16_777_216),
    ("batch", 245, 16_777_217),
    ("weekly", 240, 16_777_217),
    ("contacts", 220, 16_777_216),
];

/// One record more than the library takes: files with holes, which are not read.
#[test]
fn one_above_the_limits() {
    let folder = Folder::with_master("lengths-one-above");
    let start = Instant::now();
    for (name, width, records) in ONE_ABOVE {
        let file = File::create(folder.path(name)).expect("it can be made");
        file.set_len(width * records).expect("the disk takes holes");
    }
    let rows = "3,355,443,200 bytes: beyond the 16,777,215 rows of 200 bytes";
    let records = "16,777,216 records of 245";
    let commands = [
        (
            "check rows batch.bin --locals locals.bin --year 2007",
            3,
            rows,
        ),
        (
            "check master.bin batch --locals locals.bin --year 2007",
            5,
            records,
        ),
        ("post master.bin weekly", 22, "16,777,216 lines of 240"),
        (
            "contacts table contacts --new",
            18,
            "16,777,215 records of 220",
        ),
        ("find rows OH123456789N", 3, "16,777,215 rows of 200"),
        ("pages rows --out pages", 3, "16,777,215 rows of 200"),
        ("add-cents rows", 3, "16,777,215 rows of 200"),
        ("split batch --records 9 --out part", 5, records),
        ("merge batch.bin batch --out merged", 5, records),
    ];
    refused(&folder, &commands);
    assert!(start.elapsed() < Duration::from_secs(20));
}

/// Where memory is short the run ends with a message, and nothing is written.
#[test]
fn more_than_memory_takes() {
    let folder = Folder::with_master("lengths-memory");
    let file = File::create(folder.path("large")).expect("it can be made");
    file.set_len(245 * 16_777_216)
        .expect("the disk takes holes");
    let limited = |batch: &str| {
        let command = format!(
            "ulimit -v 1000000; exec {PROGRAM} check master.bin {batch} --locals locals.bin --year 2007"
        );
        let mut shell = std::process::Command::new("sh");
        let output = shell
            .args(["-c", &command])
            .current_dir(folder.path("."))
            .output();
        Ran::from(output.expect("there is a shell"))
    };
    let ran = limited("large");
    assert_eq!((ran.status, ran.out.as_str()), (3, ""), "{ran:?}");
    assert!(
        ran.err.contains("not enough memory: 4,110,417,920 bytes"),
        "{ran:?}"
    );
    let ran = limited("/dev/zero");
    assert_eq!((ran.status, ran.out.as_str()), (3, ""), "{ran:?}");
    assert!(ran.err.contains("/dev/zero: can't be read: "), "{ran:?}");
    assert_eq!(limited("batch.bin").status, 1);
}

#[test]
fn devices_and_pipes_as_inputs() {
    let folder = Folder::with_master("lengths-devices");
    let mut check = CHECK;
    check[4] = "/dev/null";
    assert_eq!(folder.run(&check).status, 1);
    check = CHECK;
    check[4] = "/dev/stdin";
    let ran = folder.run_with_input(&check, "");
    assert_eq!(ran.status, 1);
}

/// What a file of a kind that is never in ASCII is told has no option that its command doesn't take.
#[test]
fn masters_and_tables_in_ascii() {
    let folder = Folder::with_master("lengths-kept");
    let mut rows = two_rows("00");
    for row in rows.chunks_mut(200) {
        row[194] = 0x40;
    }
    let rows = ascii(&rows);
    for (master, words) in [
        (
            ended(&rows, 200, b"\n"),
            "stands behind every row; and it is in ASCII, which a file of this kind never is",
        ),
        (
            [&rows[..], b"\n"].concat(),
            "likely cause: it is in ASCII, which a file of this kind never is",
        ),
    ] {
        folder.write("master.bin", &master);
        folder.write("table.bin", &master);
        for command in [
            "find master.bin OH123456789N",
            "show master master.bin",
            "pages master.bin --out p.bin",
        ] {
            let ran = folder.run(&common::words(command));
            let text = ran.err.replace("\n    ", " ");
            assert!(text.contains(words), "{command}: {text}");
            assert!(
                !text.contains("--lines") && !text.contains("--ascii"),
                "{text}"
            );
        }
        let ran = folder.run(&common::words("codes table.bin --state OH --out codes.bin"));
        assert!(ran.status == 2 && !ran.err.contains("--lines"), "{ran:?}");
    }
}

#[test]
fn a_carriage_return_in_a_line() {
    let folder = Folder::with_master("lengths-return");
    let mut text = ended(&ascii(&paper_batch()), 245, b"\n");
    text[100] = b'\r';
    folder.write("batch.bin", &text);
    let err = message(&folder, &with(&CHECK, &["--lines"]), 2);
    let words = "a carriage return that ends no line: take it out";
    assert!(err.contains(words), "{err}");
}
