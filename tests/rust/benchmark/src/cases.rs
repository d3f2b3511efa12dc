//! Further batches for apply: changes in key order, details of one key, and a long list of codes;
//! and masters with other names.

use generator::bulk;
use generator::records::Record;
use generator::rng::Rng;
use generator::text::{blank, digits, put, put_text};

use crate::input::{input, renames, scattered, Input, MANY, STATE, TYPES};

/// A change on every row, in key order.
pub fn in_order(name: &str) -> Input {
    let mut rng = Rng::new(29);
    let details: Vec<Record> = (0..MANY)
        .map(|place| bulk::change(&mut rng, STATE, 2 * place, TYPES))
        .collect();
    input(name, MANY, MANY, &details, 0.0)
}

/// Local codes that adds have: the last one of the list, and one that is in no list.
pub const LAST_CODE: &str = "999";
pub const BLANK_CODE: &str = "   ";

/// No rows, adds in falling key order, and a list of all 1,000 codes; the adds have the last one, or
/// a blank one, which is in no list.
pub fn coded(name: &str, code: &str) -> Input {
    let details: Vec<Record> = (0..MANY)
        .rev()
        .map(|number| {
            let mut record = bulk::add(STATE, number);
            put_text(&mut record, 3, code);
            record
        })
        .collect();
    let mut coded = input(name, 0, MANY, &details, 0.0);
    coded.list = vec![0; 3000];
    for code in 0..1000 {
        put(&mut coded.list, 3 * code + 1, &digits(code as u64, 3));
    }
    coded
}

/// 19,660 A records, half of them on rows, and changes on the other rows, scattered, with space for
/// 62,000 rows: more than enough, which only looking keys up can tell.
pub fn half_known(name: &str) -> Input {
    let (rows, adds) = (45_875, 19_660);
    let mut rng = Rng::new(37);
    let places = scattered(&mut rng, rows);
    let (known, changed) = places.split_at(adds / 2);
    let mut details: Vec<Record> = Vec::new();
    for &place in known {
        details.push(bulk::add(STATE, 2 * place));
        details.push(bulk::add(STATE, 2 * place + 1));
    }
    for &place in changed {
        details.push(bulk::change(&mut rng, STATE, 2 * place, TYPES));
    }
    rng.shuffle(&mut details);
    input(name, rows, 62_000, &details, 0.0)
}

/// What is measured beside the others, one by one.
pub const FURTHER: [fn() -> Input; 5] = [
    || half_known("45875 rows, 19660 A, half on rows"),
    || in_order("65535 rows, 65535 changes in key order"),
    || coded("no rows, 65535 adds, 1000 local codes", LAST_CODE),
    || coded("the same with blank local codes", BLANK_CODE),
    || renames("65535 details of one key, half B", MANY, MANY, true),
];

/// Gives a share of the rows, in percent, a name that need not have four letters in front.
pub fn rename(master: &mut [u8], share: usize) {
    const NAMES: [&str; 8] = ["LI", "LEE", "NG", "COX", "O-NEIL", "Y", "WU", "DIAZ"];
    let mut rng = Rng::new(31);
    for row in master.chunks_exact_mut(200) {
        if rng.percent(share) {
            blank(row, 31, 50);
            put_text(row, 31, rng.pick(&NAMES));
        }
    }
}
