//! Case pages: lines, headings and feet by their columns, in EBCDIC and as a printer takes them.

mod common;

use common::*;

const TEXT: [&str; 5] = ["pages", "master.bin", "--text", "--out", "pages.txt"];
const PLAIN: [&str; 4] = ["pages", "master.bin", "--out", "pages.bin"];

/// So many live rows in order of key.
fn rows(count: usize) -> Vec<u8> {
    let numbered = |number: usize| row(&format!("OH1000{number:05}A"), "00000025", "00");
    // a group is never 00
    (1..=count).flat_map(|n| numbered(10_000 + n)).collect()
}

fn folder(name: &str, master: &[u8]) -> Folder {
    let folder = Folder::new(name);
    folder.write("master.bin", master);
    folder
}

fn text(folder: &Folder) -> String {
    let ran = folder.run(&with(&TEXT, &["--force"]));
    assert_eq!(ran.status, 0, "{ran:?}");
    String::from_utf8(folder.read("pages.txt")).expect("it is ASCII")
}

/// The lines of two cases by their columns.
const FIRST: [(usize, &str); 6] = [
    (1, "OH123456789N"),
    (14, "000"),
    (18, "SMITH"),
    (39, "JOHN"),
    (55, "00000025"),
    (64, "0"),
];
const SECOND: [(usize, &str); 6] = [
    (1, "WY900010001A"),
    (14, "123"),
    (18, "ABCDEFGHIJKLMNOPQRST"),
    (39, "ABCDEFGHIJKLMNO"),
    (55, "12345678"),
    (64, "8"),
];

#[test]
fn a_page_by_its_columns() {
    let mut second = row("WY900010001A", "12345678", "99");
    second[12..15].copy_from_slice(&ebcdic("123"));
    second[30..65].copy_from_slice(&ebcdic("ABCDEFGHIJKLMNOPQRSTABCDEFGHIJKLMNO"));
    second[194] = 0xFF;
    let mut deleted = row("OH234567891A", "00000000", "00");
    deleted[195] = 0xC4;
    let folder = folder("pages-columns", &[paper_row(), deleted, second].concat());
    let ran = folder.run(&PLAIN);
    assert_eq!(ran.status, 0, "{ran:?}");
    let counts = "  rows             3\n    of which live  2\n  pages            1\n";
    assert!(ran.out.contains(counts), "{}", ran.out);
    let wanted = [
        filled(132, &[(1, "CASES"), (7, "000001")]),
        filled(132, &FIRST),
        filled(132, &SECOND),
        filled(132, &[(1, "TOTAL"), (7, "0002")]),
    ];
    assert_eq!(folder.read("pages.bin"), wanted.concat());
    let lines = [
        "CASES 000001",
        "OH123456789N 000 SMITH                JOHN            00000025 0",
        "WY900010001A 123 ABCDEFGHIJKLMNOPQRST ABCDEFGHIJKLMNO 12345678 8",
        "TOTAL 0002",
    ];
    assert_eq!(text(&folder), lines.join("\n") + "\n\x0C");
}

#[test]
fn full_pages_and_the_last() {
    for (count, lasts) in [
        (1, &[1][..]),
        (57, &[57]),
        (58, &[58]),
        (59, &[58, 1]),
        (116, &[58, 58]),
        (117, &[58, 58, 1]),
    ] {
        let folder = folder("pages-full", &rows(count));
        let text = text(&folder);
        // a form feed behind each page, and nothing behind the last
        let pages: Vec<&str> = text.split_terminator('\x0C').collect();
        assert_eq!(pages.len(), lasts.len(), "{count} rows");
        for (number, (page, lines)) in (1..).zip(pages.iter().zip(lasts)) {
            assert!(page.ends_with('\n'));
            let page: Vec<&str> = page.lines().collect();
            assert_eq!(page.len(), lines + 2);
            assert_eq!(page[0], format!("CASES {number:06}"));
            assert_eq!(page[lines + 1], format!("TOTAL {lines:04}"));
        }
        let keys: Vec<&str> = text.lines().filter(|line| line.starts_with("OH")).collect();
        assert_eq!(keys.len(), count);
        assert!(keys.is_sorted() && text.ends_with('\x0C'));
        let ran = folder.run(&PLAIN);
        assert!(ran
            .out
            .contains(&format!("  pages            {}\n", lasts.len())));
        assert_eq!(
            folder.read("pages.bin").len(),
            132 * (count + 2 * lasts.len())
        );
    }
}

#[test]
fn no_live_rows_no_pages() {
    let mut deleted = row("OH234567891A", "00000000", "00");
    deleted[195] = 0xC4;
    let folder = folder("pages-none", &deleted);
    for arguments in [&TEXT[..], &PLAIN] {
        let ran = folder.run(arguments);
        assert_eq!(ran.status, 0, "{ran:?}");
        assert!(ran.out.contains("  pages            0\n"), "{}", ran.out);
    }
    assert_eq!(folder.read("pages.txt"), b"");
    assert_eq!(folder.read("pages.bin"), b"");
}

#[test]
fn bytes_that_are_no_characters() {
    let mut odd = paper_row();
    odd[36..40].copy_from_slice(&[0x00, 0x0A, 0x0C, 0xFF]);
    let folder = folder("pages-odd", &odd);
    let text = text(&folder);
    assert!(
        text.contains("OH123456789N 000 SMITH ....          "),
        "{text}"
    );
    assert_eq!(text.lines().count(), 4);
    assert_eq!(folder.run(&PLAIN).status, 0);
    assert_eq!(folder.read("pages.bin")[132 + 23..132 + 27], odd[36..40]);
}

#[test]
fn refused_masters_and_files_that_are_there() {
    let folder = folder("pages-refused", &paper_row()[..199]);
    let ran = folder.run(&PLAIN);
    assert_eq!(ran.status, 2, "{ran:?}");
    assert!(ran.err.contains("refused 3: "), "{}", ran.err);
    let mut unsound = [paper_row(), paper_row()].concat();
    unsound[399] = 0;
    folder.write("master.bin", &unsound);
    let ran = folder.run(&PLAIN);
    assert_eq!(ran.status, 2, "{ran:?}");
    assert!(ran.err.contains("row 2 of 2 is the first"), "{}", ran.err);
    assert!(!folder.has("pages.bin"));
    folder.write("master.bin", &paper_row());
    folder.write("pages.bin", b"x");
    let ran = folder.run(&PLAIN);
    assert_eq!(ran.status, 3);
    assert!(ran.err.contains("is there already; --force replaces it"));
    let ran = folder.run(&["pages", "master.bin", "--out", "master.bin", "--force"]);
    assert_eq!(ran.status, 3, "{ran:?}");
    assert_eq!(folder.read("master.bin"), paper_row());
}

#[test]
fn pages_on_standard_output() {
    let folder = folder("pages-standard", &rows(2));
    let wanted = text(&folder);
    // no terminal here: what is printed is the file
    let ran = folder.run(&["pages", "master.bin", "--text", "--out", "-"]);
    assert_eq!((ran.status, ran.out), (0, wanted));
    assert!(ran.err.starts_with("pages: carried out\n"), "{}", ran.err);
}
