//! A folder with files, the program run in it, and the files of the paper's example.
#![allow(dead_code)] // each test uses a part

use std::fs;
use std::io::{stderr, Write};
use std::path::{Path, PathBuf};
use std::process::{Command, Output, Stdio};
use std::sync::atomic::{AtomicUsize, Ordering};

pub const PROGRAM: &str = env!("CARGO_BIN_EXE_fantanolive");

/// Says what can't be tested on this machine, with the number of such lines so far. Standard error itself
/// is written to: what `println!` prints is held back where a test passes.
pub fn skipped(why: &str) {
    static COUNT: AtomicUsize = AtomicUsize::new(0);
    let count = COUNT.fetch_add(1, Ordering::Relaxed) + 1;
    let thread = std::thread::current();
    let test = thread.name().unwrap_or("a test");
    writeln!(stderr(), "skipped ({count}): {test}: {why}").expect("standard error takes it");
}

/// A folder of a test, removed at its end.
pub struct Folder(PathBuf);

/// What a run answered.
#[derive(Debug)]
pub struct Ran {
    pub status: i32,
    pub out: String,
    pub err: String,
}

impl From<Output> for Ran {
    fn from(output: Output) -> Ran {
        let text = |bytes| String::from_utf8(bytes).expect("what is printed is text");
        Ran {
            status: output.status.code().expect("no signal ended the run"),
            out: text(output.stdout),
            err: text(output.stderr),
        }
    }
}

impl Folder {
    pub fn new(name: &str) -> Folder {
        static NUMBER: AtomicUsize = AtomicUsize::new(0);
        let number = NUMBER.fetch_add(1, Ordering::Relaxed);
        let own = format!("{name}-{}-{number}", std::process::id());
        let folder = Path::new(env!("CARGO_TARGET_TMPDIR")).join(own);
        fs::create_dir_all(&folder).expect("a folder can be made");
        Folder(folder)
    }

    /// A folder with the files of the paper's example, without a master.
    pub fn with_example(name: &str) -> Folder {
        let folder = Folder::new(name);
        folder.write("batch.bin", &paper_batch());
        folder.write("locals.bin", &[]);
        folder
    }

    /// The same with the master that the example leaves.
    pub fn with_master(name: &str) -> Folder {
        let folder = Folder::with_example(name);
        folder.write("master.bin", &paper_row());
        folder
    }

    pub fn path(&self, name: &str) -> PathBuf {
        self.0.join(name)
    }

    pub fn write(&self, name: &str, bytes: &[u8]) {
        fs::write(self.path(name), bytes).expect("the folder takes files");
    }

    pub fn read(&self, name: &str) -> Vec<u8> {
        fs::read(self.path(name)).unwrap_or_else(|error| panic!("{name}: {error}"))
    }

    pub fn has(&self, name: &str) -> bool {
        self.path(name).exists()
    }

    /// The names in the folder, in order.
    pub fn names(&self) -> Vec<String> {
        let entries = fs::read_dir(&self.0).expect("the folder can be read");
        let name = |entry: std::io::Result<fs::DirEntry>| {
            let name = entry.expect("an entry").file_name();
            name.into_string().expect("names are text")
        };
        let mut names: Vec<String> = entries.map(name).collect();
        names.sort();
        names
    }

    pub fn command(&self, arguments: &[&str]) -> Command {
        let mut command = Command::new(PROGRAM);
        command
            .args(arguments)
            .current_dir(&self.0)
            .stdin(Stdio::null());
        command
    }

    pub fn run(&self, arguments: &[&str]) -> Ran {
        let output = self.command(arguments).output();
        output.expect("the program can be run").into()
    }

    /// Runs with a text on standard input.
    pub fn run_with_input(&self, arguments: &[&str], input: &str) -> Ran {
        let mut child = self
            .command(arguments)
            .stdin(Stdio::piped())
            .stdout(Stdio::piped())
            .stderr(Stdio::piped())
            .spawn()
            .expect("the program can be run");
        let mut pipe = child.stdin.take().expect("it was asked for");
        pipe.write_all(input.as_bytes()).expect("it is read");
        drop(pipe);
        child.wait_with_output().expect("it ends").into()
    }
}

impl Drop for Folder {
    fn drop(&mut self) {
        if !std::thread::panicking() {
            let _ = fs::remove_dir_all(&self.0);
        }
    }
}

/// The arguments of apply in a folder with the example.
pub const APPLY: [&str; 9] = [
    "apply",
    "master.bin",
    "batch.bin",
    "--locals",
    "locals.bin",
    "--year",
    "2007",
    "--rejects",
    "rejects.bin",
];

/// The same for check.
pub const CHECK: [&str; 7] = [
    "check",
    "master.bin",
    "batch.bin",
    "--locals",
    "locals.bin",
    "--year",
    "2007",
];

/// Arguments in a text, a space between them.
pub fn words(text: &str) -> Vec<&str> {
    text.split(' ').collect()
}

/// Arguments with more behind them.
pub fn with<'a>(arguments: &[&'a str], more: &[&'a str]) -> Vec<&'a str> {
    [arguments, more].concat()
}

/// A text in EBCDIC. It is written from document 01 and code page 037, not with the library.
pub fn ebcdic(text: &str) -> Vec<u8> {
    let code = |c: u8| match c {
        b'A'..=b'I' => 0xC1 + (c - b'A'),
        b'J'..=b'R' => 0xD1 + (c - b'J'),
        b'S'..=b'Z' => 0xE2 + (c - b'S'),
        b'0'..=b'9' => 0xF0 + (c - b'0'),
        b' ' => 0x40,
        b'-' => 0x60,
        b',' => 0x6B,
        b'.' => 0x4B,
        b'(' => 0x4D,
        b')' => 0x5D,
        b'/' => 0x61,
        b'&' => 0x50,
        b'\'' => 0x7D,
        b'#' => 0x7B,
        other => panic!("no character of the code page: {other}"),
    };
    text.bytes().map(code).collect()
}

/// Bytes with texts from columns on, spaces elsewhere.
pub fn filled(width: usize, fields: &[(usize, &str)]) -> Vec<u8> {
    let mut bytes = vec![0x40; width];
    for (column, text) in fields {
        bytes[column - 1..column - 1 + text.len()].copy_from_slice(&ebcdic(text));
    }
    bytes
}

pub fn record(fields: &[(usize, &str)]) -> Vec<u8> {
    filled(245, fields)
}

/// A control record for OH.
pub fn control(tanf: u64, non_tanf: u64, tanf_amount: u64, non_tanf_amount: u64) -> Vec<u8> {
    let totals = format!("{tanf:09}{non_tanf:09}{tanf_amount:011}{non_tanf_amount:011}");
    record(&[(1, "OHCTL"), (6, &totals)])
}

/// A for SMITH JOHN of 25 dollars, M for SMYTH of 100, and the control record with totals 0, 2, 0, 125.
pub fn paper_batch() -> Vec<u8> {
    let smith = [(1, "OH"), (6, "123456789"), (30, "SMITH"), (50, "JOHN")];
    let a = record(&[&smith[..], &[(65, "00000025"), (73, "AN")]].concat());
    let smyth = [(1, "OH"), (6, "123456789"), (30, "SMYTH")];
    let m = record(&[&smyth[..], &[(65, "00000100"), (73, "MN")]].concat());
    [a, m, control(0, 2, 0, 125)].concat()
}

/// A live row with dollars and cents.
pub fn row(key: &str, dollars: &str, cents: &str) -> Vec<u8> {
    let fields = [
        (1, key),
        (13, "000"),
        (31, "SMITH"),
        (51, "JOHN"),
        (66, dollars),
        (79, "000000000000"),
        (197, cents),
    ];
    let mut row = filled(200, &fields);
    row[194] = 0;
    row
}

/// The row that the example leaves.
pub fn paper_row() -> Vec<u8> {
    row("OH123456789N", "00000025", "00")
}

/// The reject file of the example.
pub fn paper_rejects() -> Vec<u8> {
    let reject = record(&[
        (1, "OH"),
        (6, "123456789"),
        (30, "SMYTH"),
        (65, "00000100"),
        (73, "MN"),
        (228, "17"),
        (240, "SMIT"),
    ]);
    let counts = "000000000000000000000000001000000001000000000000000000";
    [reject, record(&[(1, "OHCTL"), (6, counts)])].concat()
}

/// A contact record; a telephone of another form makes it faulty.
pub fn contact(key: &str, telephone: &str, agency: &str) -> Vec<u8> {
    let fields = [
        (1, key),
        (6, telephone),
        (42, agency),
        (77, "7 MAIN STREET"),
        (182, "COLUMBUS OH 43215"),
    ];
    filled(220, &fields)
}

/// OH007, OH000, OH003, which is faulty, and OH001.
pub fn contact_file() -> Vec<u8> {
    [
        contact("OH007", "(614) 555-0107", "COUNTY CHILD SUPPORT AGENCY"),
        contact("OH000", "(614) 555-0100", "OHIO OFFICE OF CHILD SUPPORT"),
        contact("OH003", "614-555-0103", "COUNTY CHILD SUPPORT AGENCY"),
        contact("OH001", "(614) 555-0101", "BUREAU OF FAMILY SUPPORT"),
    ]
    .concat()
}

/// The good ones of these, in order.
pub fn contact_table() -> Vec<u8> {
    let file = contact_file();
    let record = |number: usize| file[number * 220..][..220].to_vec();
    [record(1), record(3), record(0)].concat()
}

/// A line of a collection file.
pub fn line(ssn: &str, case_type: &str, collection: &str, adjustment: &str) -> Vec<u8> {
    let fields = [
        (1, "OH"),
        (6, ssn),
        (30, "SMITH"),
        (50, "JOHN"),
        (76, collection),
        (87, adjustment),
        (107, case_type),
    ];
    filled(240, &fields)
}

/// The last record of a collection file.
pub fn total(adjustments: u64, collections: u64) -> Vec<u8> {
    let counts = format!("{adjustments:015}{collections:015}");
    filled(240, &[(1, "OH"), (6, "TOTAL"), (35, &counts)])
}

/// 10.01 collected and 0.50 adjusted; then 20.00 collected of 14.99, which deletes the case; so 1.00 is not posted.
pub fn weekly() -> Vec<u8> {
    let none = "00000000000";
    [
        line("123456789", "N", "00000001001", none),
        line("987654321", "A", none, "00000000050"),
        line("123456789", "N", "00000002000", none),
        line("123456789", "N", none, "00000000100"),
        total(2, 2),
    ]
    .concat()
}

/// 25 dollars and 100 dollars, with these cents.
pub fn two_rows(cents: &str) -> Vec<u8> {
    [
        row("OH123456789N", "00000025", cents),
        row("OH987654321A", "00000100", cents),
    ]
    .concat()
}

/// The same after the weekly file.
pub fn two_rows_posted() -> Vec<u8> {
    let mut first = row("OH123456789N", "00000000", "00");
    first[195] = 0xC4;
    [first, row("OH987654321A", "00000100", "50")].concat()
}

/// A batch for two rows: M of 30 dollars for the first, and A of 40 dollars for a new case between them.
pub fn second_batch() -> Vec<u8> {
    let m = [(1, "OH"), (6, "123456789"), (30, "SMITH")];
    let m = record(&[&m[..], &[(65, "00000030"), (73, "MN")]].concat());
    let a = [(1, "OH"), (6, "234567891"), (30, "DOE"), (50, "JANE")];
    let a = record(&[&a[..], &[(65, "00000040"), (73, "AA")]].concat());
    [m, a, control(1, 1, 40, 30)].concat()
}

/// The two rows after it.
pub fn second_rows() -> Vec<u8> {
    let mut new = row("OH234567891A", "00000040", "00");
    new[30..65].copy_from_slice(&filled(35, &[(1, "DOE"), (21, "JANE")]));
    [
        row("OH123456789N", "00000030", "00"),
        new,
        row("OH987654321A", "00000100", "00"),
    ]
    .concat()
}

/// Its journal: 2 rows before and 3 after; the row at place 0 changed, with the old one; that at place 1 new.
pub fn second_journal() -> Vec<u8> {
    let old = row("OH123456789N", "00000025", "00");
    [&[2, 3, 0, 1][..], &old, &[1, 0]].concat()
}

/// The arguments of apply with that batch and its journal.
pub const JOURNALED: [&str; 11] = [
    "apply",
    "two.bin",
    "second.bin",
    "--locals",
    "locals.bin",
    "--year",
    "2007",
    "--rejects",
    "rejects.bin",
    "--journal",
    "journal.bin",
];

/// Bytes of ASCII from EBCDIC.
pub fn ascii(bytes: &[u8]) -> Vec<u8> {
    let characters = " ABCDEFGHIJKLMNOPQRSTUVWXYZ0123456789-,.()/&'#";
    let codes = ebcdic(characters);
    let character = |byte: &u8| {
        let at = codes.iter().position(|code| code == byte);
        characters.as_bytes()[at.expect("the byte is a character")]
    };
    bytes.iter().map(character).collect()
}
