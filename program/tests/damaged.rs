//! Files damaged at random: every run ends with a status of its own, prints plain text, changes nothing unless it is carried
//! out, and leaves nothing beside its files.

mod common;

use common::*;

/// Numbers that look random; the same seed gives the same ones.
struct Numbers(u64);

impl Numbers {
    fn below(&mut self, limit: usize) -> usize {
        self.0 = self
            .0
            .wrapping_mul(6_364_136_223_846_793_005)
            .wrapping_add(1_442_695_040_888_963_407);
        (self.0 >> 33) as usize % limit
    }
}

/// A file with some bytes changed, put in, taken out or cut off.
fn damaged(numbers: &mut Numbers, file: &[u8]) -> Vec<u8> {
    let mut bytes = file.to_vec();
    for _ in 0..numbers.below(4) {
        let at = numbers.below(bytes.len().max(1));
        match numbers.below(6) {
            0 => bytes.truncate(at),
            1 => bytes.insert(at.min(bytes.len()), b'\n'),
            2 if !bytes.is_empty() => drop(bytes.remove(at)),
            3 => bytes.extend_from_slice(&file[..numbers.below(file.len() + 1)]),
            _ if !bytes.is_empty() => bytes[at] = numbers.below(256) as u8,
            _ => {}
        }
    }
    bytes
}

const FILES: [&str; 6] = [
    "master.bin",
    "batch.bin",
    "locals.bin",
    "weekly.bin",
    "contacts.bin",
    "table.bin",
];

/// A command over these files.
fn command(numbers: &mut Numbers) -> Vec<&'static str> {
    let lists = ["--locals", "locals.bin", "--year", "2007"];
    let out = ["--out", "out.bin"];
    let rejects = with(&lists, &["--rejects", "rejects.bin"]);
    let date = with(&["--state", "OH", "--date", "20071231"], &out);
    let mut words = match numbers.below(15) {
        0 => with(&["apply", "master.bin", "batch.bin"], &rejects),
        1 => with(&["check", "master.bin", "batch.bin"], &lists),
        2 => vec!["find", "master.bin", "OH123456789N"],
        3 => with(&["reconcile", "master.bin"], &date),
        4 => vec!["post", "master.bin", "weekly.bin"],
        5 => vec!["add-cents", "master.bin"],
        6 => vec!["contacts", "table.bin", "contacts.bin"],
        7 => with(&["codes", "table.bin", "--state", "OH"], &out),
        8 => with(&["to-ascii", FILES[numbers.below(6)]], &out),
        9 => with(&["to-ebcdic", FILES[numbers.below(6)]], &out),
        10 => with(&["split", "batch.bin", "--records", "1"], &out),
        11 => with(&["merge", "batch.bin", "batch.bin"], &out),
        _ => {
            let kinds = ["master", "batch", "rejects", "reconciliation", "contacts"];
            let more = ["collections", "locals"];
            let kind = with(&kinds, &more)[numbers.below(7)];
            vec!["show", kind, FILES[numbers.below(6)]]
        }
    };
    let ascii = !["find", "add-cents", "to-ascii", "to-ebcdic"].contains(&words[0]);
    if ascii && words[1] != "master" && numbers.below(4) == 0 {
        words.push("--ascii");
    }
    if numbers.below(3) == 0 {
        words.push("--json");
    }
    words
}

/// A run in a folder that it leaves in order.
fn run(folder: &Folder, words: &[&str]) -> i32 {
    let before: Vec<Vec<u8>> = FILES.iter().map(|name| folder.read(name)).collect();
    let ran = folder.run(words);
    assert!((0..=3).contains(&ran.status), "{words:?}: {ran:?}");
    let printed = ran.out + &ran.err;
    assert!(!printed.contains("panicked"), "{words:?}: {printed}");
    let is_plain = |byte: u8| byte == b'\n' || (b' '..=b'~').contains(&byte);
    assert!(printed.bytes().all(is_plain), "{words:?}: {printed}");
    for name in folder.names() {
        let leftover = name.ends_with(".tmp") || name.ends_with(".lock");
        assert!(!leftover, "{words:?} left {name}");
    }
    if ran.status > 1 {
        let after = FILES.iter().map(|name| folder.read(name));
        assert!(after.eq(before), "{words:?} changed a file");
        let made = ["out.bin", "out.bin001", "rejects.bin"];
        assert!(!made.iter().any(|name| folder.has(name)), "{words:?}");
    }
    ran.status
}

#[test]
fn damaged_files() {
    let folder = Folder::new("damaged");
    let good: [Vec<u8>; 6] = [
        two_rows("00"),
        paper_batch(),
        ebcdic("001002"),
        weekly(),
        contact_file(),
        contact_table(),
    ];
    let mut numbers = Numbers(20_071_231);
    let mut statuses = [0; 4];
    for _ in 0..250 {
        for (name, bytes) in FILES.iter().zip(&good) {
            let bytes = match numbers.below(3) {
                0 => damaged(&mut numbers, bytes),
                _ => bytes.clone(),
            };
            folder.write(name, &bytes);
        }
        let words = command(&mut numbers);
        statuses[run(&folder, &words) as usize] += 1;
        let is_made = |name: &String| name.starts_with("out.bin") || name == "rejects.bin";
        for name in folder.names().into_iter().filter(is_made) {
            let _ = std::fs::remove_file(folder.path(&name));
        }
    }
    assert!(statuses.iter().all(|&count| count > 10), "{statuses:?}");
}
