//! The commands, each with what the library's call gives over the same bytes.

use std::fs::{self, File};
use std::hint::black_box;
use std::io::Write;
use std::path::Path;
use std::time::Instant;

use fantanolive::raw;
use generator::contacts::CONTACT;
use generator::posting::LINE;
use generator::records::{Record, RECORD};
use generator::rows::ROW;
use generator::text::{put_text, text, SPACE};

use crate::files::{batch, Files, MOST, STATE};
use crate::journal::journal;
use crate::log::sha256::sha256;
use crate::pages::{pages, printed};

pub struct Case {
    pub name: &'static str,
    pub arguments: Vec<String>,
    pub status: i32,
    /// Files that are put back before each run: their bytes, or none where they are to be missing.
    pub changed: Vec<(&'static str, Option<Vec<u8>>)>,
    pub written: Vec<(&'static str, Vec<u8>)>,
    /// How lines of the report begin, and how many there are.
    pub listed: (&'static str, usize),
    /// Seconds that the library's call takes; 0 where there is none.
    pub call: f64,
    /// Seconds that reading and writing the files takes, with fingerprints where the program takes them.
    pub files: f64,
    /// Bytes of the files that are read.
    pub read: u64,
    /// Bytes of the lists that the call fills beside the files.
    pub lists: u64,
}

impl Case {
    /// The sizes of the files and outputs.
    pub fn memory(&self) -> u64 {
        let written = self.written.iter().map(|(_, bytes)| bytes.len() as u64);
        self.read + written.sum::<u64>() + self.lists
    }

    /// A case whose call is still to be made; the arguments are words.
    fn new(name: &'static str, words: &str, status: i32) -> Case {
        Case {
            name,
            arguments: words.split(' ').map(str::to_string).collect(),
            status,
            changed: Vec::new(),
            written: Vec::new(),
            listed: ("never printed", 0),
            call: 0.0,
            files: 0.0,
            read: 0,
            lists: 0,
        }
    }

    /// Whether a file is written over: the program then takes fingerprints for its log.
    fn is_logged(&self) -> bool {
        let is_written = |name| self.written.iter().any(|(other, _)| *other == name);
        self.changed.iter().any(|(name, _)| is_written(*name))
    }

    /// Reads the files by name and writes the outputs as the program does, with their fingerprints where it takes them, to see how
    /// long that takes: many processors have no instructions for a fingerprint.
    fn time_files(mut self, folder: &Path, names: &[&str]) -> Case {
        let is_logged = self.is_logged();
        let fingerprint = |bytes: &[u8]| is_logged.then(|| black_box(sha256(bytes)));
        let start = Instant::now();
        for name in names {
            let bytes = fs::read(folder.join(name)).expect("it was written");
            self.read += bytes.len() as u64;
            fingerprint(&bytes);
        }
        for (_, bytes) in &self.written {
            let mut file = File::create(folder.join("copy")).expect("the folder takes files");
            file.write_all(bytes).expect("the disk has room");
            file.sync_all().expect("it can be synced");
            fingerprint(bytes);
        }
        self.files = start.elapsed().as_secs_f64();
        self
    }
}

/// Seconds of a call, and what it gives.
fn timed<T>(call: impl FnOnce() -> T) -> (f64, T) {
    let start = Instant::now();
    let result = call();
    (start.elapsed().as_secs_f64(), result)
}

/// What apply leaves.
struct Applied {
    seconds: f64,
    master: Vec<u8>,
    rejects: Vec<u8>,
    rejected: usize,
}

fn apply(master: &[u8], batch: &[u8], locals: &[u8]) -> Applied {
    let rows = master.len() / ROW;
    let details = batch.len() / RECORD - 1;
    let mut master = master.to_vec();
    master.resize(MOST * ROW, 0);
    let (mut verdicts, mut result) = (vec![0; details], [0; 5]);
    let mut rejects = vec![0; RECORD * (details + 1)];
    let (seconds, answer) = timed(|| {
        raw::apply(
            &mut master,
            rows,
            batch,
            locals,
            2007,
            &mut verdicts,
            &mut rejects,
            &mut result,
        )
    });
    assert_eq!(answer, 0, "the batch is refused");
    master.truncate(result[4] as usize * ROW);
    let listed = verdicts.iter().filter(|&&verdict| verdict != 0).count();
    rejects.truncate(RECORD * (listed + 1));
    Applied {
        seconds,
        master,
        rejects,
        rejected: (result[1] + result[3]) as usize,
    }
}

fn ascii(bytes: &[u8]) -> (f64, Vec<u8>) {
    let mut out = vec![0; bytes.len()];
    let (seconds, answer) = timed(|| raw::to_ascii(bytes, &mut out, &mut 0));
    assert_eq!(answer, 0, "the file is refused");
    (seconds, out)
}

const VERDICTS: u64 = 8 * MOST as u64;

const LISTS: &str = "--locals locals.bin --year 2007 --all";

fn batches(files: &Files, folder: &Path) -> Vec<Case> {
    let changes = apply(&files.master, &files.changes, &files.locals);
    let wrong = apply(&files.master, &files.wrong, &files.locals);
    let adds = apply(&[], &files.adds, &files.locals);
    let check = |name, words, applied| checking(name, words, applied, folder);
    let with = |name, batch, applied| applying(name, Some(&files.master), batch, applied, folder);
    vec![
        check("check, changes", "changes.bin", &changes),
        check("check, records with 17", "wrong.bin", &wrong),
        check("check, records with 17, JSON", "wrong.bin --json", &wrong),
        with("apply, changes", "changes.bin", &changes),
        with("apply, records with 17", "wrong.bin", &wrong),
        applying(
            "apply, adds, from no master",
            None,
            "adds.bin",
            &adds,
            folder,
        ),
        in_ascii(files, folder, &wrong),
        journaled(files, folder, &changes),
        taken_back(files, folder, &changes),
        splitting(files, folder),
        merging(files, folder),
    ]
}

/// The changes with a journal.
fn journaled(files: &Files, folder: &Path, applied: &Applied) -> Case {
    let name = "apply, changes, with a journal";
    let mut case = applying(name, Some(&files.master), "changes.bin", applied, folder);
    case.arguments
        .extend(["--journal", "journal.bin"].map(str::to_string));
    let (journal, _) = journal(&files.master, &applied.master);
    case.written.push(("journal.bin", journal));
    case.time_files(folder, &[])
}

/// The changes taken back.
fn taken_back(files: &Files, folder: &Path, applied: &Applied) -> Case {
    let (journal, changed) = journal(&files.master, &applied.master);
    fs::write(folder.join("back.bin"), journal).expect("the folder takes files");
    let mut case = Case::new("take-back", "take-back master.bin back.bin", 0);
    case.changed = vec![("master.bin", Some(applied.master.clone()))];
    case.written = vec![("master.bin", files.master.clone())];
    case.listed = ("row ", changed);
    // the rows that differ, and their places
    case.lists = 24 * MOST as u64;
    case.time_files(folder, &["master.bin", "back.bin"])
}

fn checking(name: &'static str, words: &str, applied: &Applied, folder: &Path) -> Case {
    let batch = words.split(' ').next().expect("a batch is named");
    let command = format!("check master.bin {words} {LISTS}");
    let mut case = Case::new(name, &command, i32::from(applied.rejected > 0));
    case.call = applied.seconds;
    case.lists = VERDICTS + applied.rejects.len() as u64;
    if batch == words {
        case.listed = ("record ", applied.rejected);
    }
    case.time_files(folder, &["master.bin", batch])
}

/// From a master, or from none.
fn applying(
    name: &'static str,
    master: Option<&Vec<u8>>,
    batch: &str,
    applied: &Applied,
    folder: &Path,
) -> Case {
    let (file, new) = match master {
        Some(_) => ("master.bin", ""),
        None => ("new.bin", " --new"),
    };
    let command = format!("apply {file} {batch} --rejects rejects.bin {LISTS}{new}");
    let mut case = Case::new(name, &command, i32::from(applied.rejected > 0));
    case.call = applied.seconds;
    case.changed = vec![(file, master.cloned())];
    case.written = vec![
        ("rejects.bin", applied.rejects.clone()),
        (file, applied.master.clone()),
    ];
    case.listed = ("record ", applied.rejected);
    case.lists = VERDICTS;
    let inputs: &[&str] = if master.is_some() {
        &[file, batch]
    } else {
        &[batch]
    };
    case.time_files(folder, inputs)
}

/// The records with 17 in ASCII, their reject file too.
fn in_ascii(files: &Files, folder: &Path, applied: &Applied) -> Case {
    let (there, batch) = ascii(&files.wrong);
    let (back, rejects) = ascii(&applied.rejects);
    fs::write(folder.join("wrong.txt"), batch).expect("the folder takes files");
    fs::write(folder.join("locals.txt"), b"001002003").expect("the folder takes files");
    let words =
        "apply master.bin wrong.txt --ascii --rejects rejects.txt --locals locals.txt --year 2007 --all";
    let mut case = Case::new("apply, in ASCII", words, 1);
    case.call = applied.seconds + there + back;
    case.changed = vec![("master.bin", Some(files.master.clone()))];
    case.written = vec![
        ("rejects.txt", rejects),
        ("master.bin", applied.master.clone()),
    ];
    case.listed = ("record ", applied.rejected);
    case.lists = VERDICTS;
    case.time_files(folder, &["master.bin", "wrong.txt"])
}

/// The keys of all rows, the last first, in lines of ASCII.
fn key_lines(master: &[u8]) -> Vec<u8> {
    let keys: Vec<&[u8]> = master.chunks(ROW).map(|row| &row[..12]).collect();
    let (_, keys) = ascii(&keys.concat());
    let lines = keys.chunks(12).rev().map(|key| [key, b"\n"].concat());
    lines.collect::<Vec<_>>().concat()
}

fn find_many(files: &Files, folder: &Path) -> Case {
    let lines = key_lines(&files.master);
    fs::write(folder.join("keys.txt"), lines).expect("the folder takes files");
    let mut case = Case::new("find, every key", "find master.bin --keys keys.txt", 0);
    case.changed = vec![("master.bin", Some(files.master.clone()))];
    case.listed = ("  row ", MOST);
    // each key with its number, its place in the order and its answer
    case.lists = 100 * MOST as u64;
    case.time_files(folder, &["master.bin", "keys.txt"])
}

/// The details of the changes.
fn changes(files: &Files) -> Vec<Record> {
    let details = files.changes[..MOST * RECORD].chunks_exact(RECORD);
    let record = |bytes: &[u8]| bytes.try_into().expect("it has its width");
    details.map(record).collect()
}

/// No two changes have one key, so every cut is allowed.
fn splitting(files: &Files, folder: &Path) -> Case {
    let most = 30_000;
    let words = format!("split changes.bin --records {most} --out part");
    let mut case = Case::new("split", &words, 0);
    let details = changes(files);
    let (seconds, parts) = timed(|| details.chunks(most).map(batch).collect::<Vec<_>>());
    case.call = seconds;
    case.written = ["part001", "part002", "part003"]
        .into_iter()
        .zip(parts)
        .collect();
    case.listed = ("part ", 3);
    case.time_files(folder, &["changes.bin"])
}

/// The first part of the changes and the rest.
fn merging(files: &Files, folder: &Path) -> Case {
    let details = changes(files);
    let (first, second) = details.split_at(30_000);
    fs::write(folder.join("first.bin"), batch(first)).expect("the folder takes files");
    fs::write(folder.join("second.bin"), batch(second)).expect("the folder takes files");
    let words = "merge first.bin second.bin --out merged.bin";
    let mut case = Case::new("merge", words, 0);
    case.call = timed(|| batch(&details)).0;
    case.written = vec![("merged.bin", files.changes.clone())];
    case.time_files(folder, &["first.bin", "second.bin"])
}

fn over_the_master(files: &Files, folder: &Path) -> Vec<Case> {
    let restored = || vec![("master.bin", Some(files.master.clone()))];
    let mut find = Case::new("find", "find master.bin OH100010001A", 0);
    let key = files.master[..12].to_vec();
    find.call = timed(|| raw::find(&files.master, MOST, &key, &mut 0)).0;
    find.changed = restored();
    find.listed = ("  row ", 1);

    let words = "reconcile master.bin --state OH --date 20071231 --out rec.bin";
    let mut reconcile = Case::new("reconcile", words, 0);
    let (mut out, mut records) = (vec![0; RECORD * (MOST + 1)], 0);
    let date = text("20071231");
    let (seconds, answer) =
        timed(|| raw::reconcile(&files.master, MOST, &STATE, &date, &mut out, &mut records));
    assert_eq!((answer, records), (0, MOST as u64));
    reconcile.call = seconds;
    reconcile.written = vec![("rec.bin", out)];

    let mut cents = Case::new("add-cents", "add-cents old.bin", 0);
    let mut master = files.old_master.clone();
    let (seconds, answer) = timed(|| raw::add_cents(&mut master, MOST));
    assert_eq!(answer, 0, "the old master is refused");
    cents.call = seconds;
    cents.changed = vec![("old.bin", Some(files.old_master.clone()))];
    cents.written = vec![("old.bin", master)];

    vec![
        find.time_files(folder, &["master.bin"]),
        find_many(files, folder),
        reconcile.time_files(folder, &["master.bin"]),
        paged("pages", "pages.bin", pages(&files.master), folder),
        paged(
            "pages, as text",
            "pages.txt --text",
            printed(&ascii(&pages(&files.master)).1),
            folder,
        ),
        cents.time_files(folder, &["old.bin"]),
        post(files, folder),
    ]
}

/// An M of 7 dollars for the first row.
fn change_of(row: &[u8]) -> Record {
    let mut record = [SPACE; RECORD];
    record[..2].copy_from_slice(&row[..2]);
    record[5..14].copy_from_slice(&row[2..11]);
    record[29..49].copy_from_slice(&row[30..50]);
    put_text(&mut record, 65, "00000007M");
    record[73] = row[11];
    record
}

fn edits(files: &Files, folder: &Path) -> Vec<Case> {
    let row = &files.master[..ROW];
    let mut wanted = row.to_vec();
    put_text(&mut wanted, 66, "00000007");
    put_text(&mut wanted, 197, "00");
    let sent = change_of(row);
    fs::write(folder.join("row.bin"), row).expect("the folder takes files");
    fs::write(folder.join("wanted.bin"), &wanted).expect("the folder takes files");

    let words = "edit master.bin OH100010001A --amount 7 --out change.bin";
    let mut edit = Case::new("edit", words, 0);
    edit.call = timed(|| raw::find(&files.master, MOST, &row[..12], &mut 0)).0;
    edit.changed = vec![("master.bin", Some(files.master.clone()))];
    edit.written = vec![("change.bin", batch(&[sent]))];
    edit.listed = ("record ", 1);

    let words = "records row.bin wanted.bin --out records.bin";
    let mut records = Case::new("records", words, 0);
    records.written = vec![("records.bin", sent.to_vec())];
    records.listed = ("record ", 1);
    vec![
        edit.time_files(folder, &["master.bin"]),
        records.time_files(folder, &["row.bin", "wanted.bin"]),
    ]
}

/// The pages of the master, by the words behind --out.
fn paged(name: &'static str, words: &'static str, pages: Vec<u8>, folder: &Path) -> Case {
    let file = words.split(' ').next().expect("a file is named");
    let mut case = Case::new(name, &format!("pages master.bin --out {words}"), 0);
    // the pages in EBCDIC, from which the text is made
    case.lists = 9 << 20;
    case.written = vec![(file, pages)];
    case.time_files(folder, &["master.bin"])
}

fn post(files: &Files, folder: &Path) -> Case {
    let mut master = files.master.clone();
    let lines = files.weekly.len() / LINE - 1;
    let (mut list, mut listed) = (vec![0; lines], 0);
    let (seconds, answer) =
        timed(|| raw::post(&mut master, MOST, &files.weekly, &mut list, &mut listed));
    assert_eq!(answer, 0, "the collection file is refused");
    let mut case = Case::new(
        "post",
        "post master.bin weekly.bin --all",
        i32::from(listed > 0),
    );
    case.call = seconds;
    case.changed = vec![("master.bin", Some(files.master.clone()))];
    case.written = vec![("master.bin", master)];
    case.listed = ("line ", listed as usize);
    case.time_files(folder, &["master.bin", "weekly.bin"])
}

fn over_contacts(files: &Files, folder: &Path) -> Vec<Case> {
    let mut table = vec![0; MOST * CONTACT];
    let (mut faulty, mut result) = (vec![0; MOST], [0; 2]);
    let (seconds, answer) =
        timed(|| raw::contacts_update(&mut table, 0, &files.contacts, &mut faulty, &mut result));
    assert_eq!(answer, 0, "the contact file is refused");
    let [count, bad] = result.map(|number| number as usize);
    table.truncate(count * CONTACT);
    let words = "contacts table.bin contacts.bin --new --all";
    let mut contacts = Case::new("contacts", words, i32::from(bad > 0));
    contacts.call = seconds;
    contacts.changed = vec![("table.bin", None)];
    contacts.listed = ("record ", bad);

    let (mut out, mut number) = (vec![0; 3 * count], 0);
    let words = "codes table.bin --state OH --out codes.bin";
    let mut codes = Case::new("codes", words, 0);
    let (seconds, answer) =
        timed(|| raw::contacts_codes(&table, count, &STATE, &mut out, &mut number));
    assert_eq!(answer, 0, "the table is refused");
    out.truncate(3 * number as usize);
    codes.call = seconds;
    codes.changed = vec![("table.bin", Some(table.clone()))];
    codes.written = vec![("codes.bin", out)];
    fs::write(folder.join("table.bin"), &table).expect("the folder takes files");
    contacts.written = vec![("table.bin", table)];
    vec![
        contacts.time_files(folder, &["contacts.bin"]),
        codes.time_files(folder, &["table.bin"]),
    ]
}

fn conversions(files: &Files, folder: &Path) -> Vec<Case> {
    let (seconds, out) = ascii(&files.changes);
    let mut there = Case::new("to-ascii", "to-ascii changes.bin --out changes.txt", 0);
    there.call = seconds;
    there.written = vec![("changes.txt", out.clone())];
    fs::write(folder.join("changes.txt"), &out).expect("the folder takes files");
    let mut back = Case::new("to-ebcdic", "to-ebcdic changes.txt --out back.bin", 0);
    back.call = seconds;
    back.written = vec![("back.bin", files.changes.clone())];
    vec![
        there.time_files(folder, &["changes.bin"]),
        back.time_files(folder, &["changes.txt"]),
    ]
}

fn shown(files: &Files, folder: &Path) -> Vec<Case> {
    let show = |name, words: &str, file, start, count| {
        let mut case = Case::new(name, &format!("show {words}"), 0);
        case.changed = vec![("master.bin", Some(files.master.clone()))];
        case.listed = (start, count);
        case.time_files(folder, &[file])
    };
    let (list, json) = ("batch changes.bin --list", "batch changes.bin --json");
    vec![
        show(
            "show, master",
            "master master.bin",
            "master.bin",
            " ",
            MOST + 1,
        ),
        show(
            "show, batch",
            "batch changes.bin",
            "changes.bin",
            "record ",
            2,
        ),
        show(
            "show, a line per field",
            list,
            "changes.bin",
            "record ",
            MOST + 1,
        ),
        show("show, JSON", json, "changes.bin", "{", 1),
        show(
            "show, collections",
            "collections weekly.bin",
            "weekly.bin",
            "line ",
            1,
        ),
        show(
            "show, contacts",
            "contacts contacts.bin",
            "contacts.bin",
            "record ",
            1,
        ),
    ]
}

pub fn cases(files: &Files, folder: &Path) -> Vec<Case> {
    [
        batches(files, folder),
        over_the_master(files, folder),
        edits(files, folder),
        over_contacts(files, folder),
        conversions(files, folder),
        shown(files, folder),
    ]
    .into_iter()
    .flatten()
    .collect()
}
