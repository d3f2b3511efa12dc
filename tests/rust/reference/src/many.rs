//! Document 02, item 9: many cases looked up together.

use std::cmp::Ordering;

use crate::row::{key_sound, refusal_03, refusal_04, rows_of};
use crate::text::columns;

pub const KEY: usize = 12;
/// "none being 4,294,967,295"
pub const NONE: u32 = 4_294_967_295;

/// "keys unsound or not strictly rising"; a last key cut short is unsound
pub fn refusal_27(keys: &[u8]) -> bool {
    let keys: Vec<&[u8]> = keys.chunks(KEY).collect();
    keys.iter().any(|key| !key_sound(key)) || keys.windows(2).any(|pair| pair[0] >= pair[1])
}

/// "an answer list shorter than the keys"
pub fn refusal_28(places: &[u32], keys: &[u8]) -> bool {
    places.len() < keys.len() / KEY
}

/// The places of keys: the number of comparisons with a row. Err holds the refusal's number.
pub fn find_many(master: &[u8], rows: usize, keys: &[u8], places: &mut [u32]) -> Result<u64, u64> {
    if refusal_03(master, rows) {
        return Err(3);
    }
    if refusal_04(master, rows) {
        return Err(4);
    }
    if refusal_27(keys) {
        return Err(27);
    }
    if refusal_28(places, keys) {
        return Err(28);
    }
    let rows: Vec<&[u8]> = rows_of(master, rows).collect();
    let (mut present, mut comparisons) = (0, 0);
    for (key, place) in keys.chunks_exact(KEY).zip(places) {
        *place = answer(&rows, key, &mut present, &mut comparisons);
    }
    Ok(comparisons)
}

/// "The walk compares the present key with the present row: a smaller row is passed; an equal one
/// gives its place, a larger one or no row left gives none, and the key is passed."
fn answer(rows: &[&[u8]], key: &[u8], present: &mut usize, comparisons: &mut u64) -> u32 {
    while let Some(row) = rows.get(*present) {
        *comparisons += 1;
        match columns(row, 1, 12).cmp(key) {
            Ordering::Less => *present += 1,
            Ordering::Equal => return *present as u32,
            Ordering::Greater => return NONE,
        }
    }
    NONE
}
