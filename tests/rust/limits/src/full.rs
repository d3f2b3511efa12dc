//! A master of as many sound rows as there can be, and one with a row more.

use fantanolive::raw;
use generator::bulk;
use generator::pages::enough;
use generator::records::{batch, RECORD};
use generator::text::{digits, text};
use reference::many::NONE;
use reference::pages::{LINES, WIDTH};
use reference::row::ROW;
use sparse::{Made, Mapping};

use crate::{MOST, STATE};

/// Rows with even key numbers; the bytes behind the last are rows too.
fn rows(count: usize) -> Made {
    Made::new(count * ROW, |from, bytes| {
        bulk::write_rows_from(bytes, STATE, from / ROW, 2);
    })
}

/// The calls that only read it.
pub fn read() {
    let master = rows(MOST);
    find(&master);
    pages(&master);
    reconcile(&master);
}

fn find(master: &[u8]) {
    let last = bulk::key(STATE, 2 * (MOST - 1));
    let mut place = 0;
    assert_eq!(raw::find(master, MOST, &last, &mut place), 0);
    assert_eq!(place, MOST as u64 - 1);
    let numbers = [0, 1, MOST, 2 * MOST - 2, 2 * MOST];
    let keys = numbers.map(|number| bulk::key(STATE, number)).concat();
    let (mut places, mut comparisons) = ([0; 5], 0);
    assert_eq!(
        raw::find_many(master, MOST, &keys, &mut places, &mut comparisons),
        0
    );
    assert_eq!(places, [0, NONE, NONE, MOST as u32 - 1, NONE]);
    // Each row is passed once, and four keys stop at one.
    assert_eq!(comparisons, MOST as u64 + 4);
}

fn pages(master: &[u8]) {
    let mut out = Mapping::repeated(&[0xEE; WIDTH], enough(MOST) / WIDTH, 0);
    let mut pages = 0;
    assert_eq!(raw::pages(master, MOST, &mut out, &mut pages), 0);
    assert_eq!(pages, MOST.div_ceil(LINES) as u64);
    let last = (pages as usize - 1) * (LINES + 2) * WIDTH;
    assert!(out[last..].starts_with(&text("CASES 289263 ")));
    let foot = &out[out.len() - WIDTH..];
    assert!(foot.starts_with(&text(&format!("TOTAL {:04} ", MOST % LINES))));
    let line = &out[out.len() - 2 * WIDTH..][..12];
    assert_eq!(line, bulk::key(STATE, 2 * (MOST - 1)));
}

fn reconcile(master: &[u8]) {
    let mut out = Mapping::repeated(&[0xEE; RECORD], MOST, RECORD);
    let (date, mut records) = (text("20261117"), 0);
    assert_eq!(
        raw::reconcile(master, MOST, &STATE, &date, &mut out, &mut records),
        0
    );
    assert_eq!(records, MOST as u64);
    let last = &out[MOST * RECORD..];
    let counts = [MOST as u64, 0, MOST as u64].map(|count| digits(count, 9));
    assert_eq!(last[..5], text("RCTOH"));
    assert_eq!(last[5..32], counts.concat());
}

/// 10 comes where neither holds.
pub fn refused() {
    let master = rows(MOST + 1);
    let apply = |rows: usize, number: usize| {
        let batch = batch(STATE, &[bulk::add(STATE, number)]);
        let mut result = [77; 5];
        let lent = master.lent();
        let answer = raw::apply(lent, rows, &batch, &[], 2007, &mut [], &mut [], &mut result);
        assert_eq!(result, [77; 5]);
        answer
    };
    for (rows, number, expected) in [
        (MOST + 1, 1, 3),
        (MOST, 1, 9),
        (MOST - 1, 1, 10),
        // An A record whose key has a row.
        (MOST, 2 * MOST - 2, 10),
    ] {
        assert_eq!(apply(rows, number), expected, "{rows} rows, key {number}");
    }
    let mut place = 77;
    let key = bulk::key(STATE, 0);
    assert_eq!(
        (raw::find(&master, MOST + 1, &key, &mut place), place),
        (3, 77)
    );
}
