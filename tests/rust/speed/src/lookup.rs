//! Finding a case and reconciliation, written for speed.

use crate::field::{self, at, copy, Row, NO_STATE, SPACE, ZERO};
use crate::{packed, MOST};

/// A key's twelve bytes as a number.
#[inline(always)]
fn order(key: &[u8; 12]) -> u128 {
    let first = u64::from_be_bytes(*at(key, 0));
    let last = u32::from_be_bytes(*at(key, 8));
    u128::from(first) << 32 | u128::from(last)
}

/// The rows, or the first of refusals 3 and 4 that holds.
fn sound_rows(master: &[u8], rows: usize) -> Result<&[Row], u64> {
    let (all, rest) = master.as_chunks::<200>();
    if !rest.is_empty() || rows > all.len() || rows > MOST {
        return Err(3);
    }
    if !sound_order(&all[..rows]) {
        return Err(4);
    }
    Ok(&all[..rows])
}

/// The rows are sound and in strictly rising order.
pub fn sound_order(rows: &[Row]) -> bool {
    let mut before = 0;
    for row in rows {
        let key = order(at(row, 0));
        if !(field::sound(row) & (before < key)) {
            return false;
        }
        before = key;
    }
    true
}

/// The place of the row with a key, or the refusal's number.
pub fn find(master: &[u8], rows: usize, key: &[u8]) -> Result<u64, u64> {
    let rows = sound_rows(master, rows)?;
    let key: &[u8; 12] = key.try_into().map_err(|_| 14u64)?;
    let (_, errors) = packed(at(key, 0), at(key, 2), key[11]);
    if errors != 0 {
        return Err(14);
    }
    let place = rows.binary_search_by(|row| at::<12>(row, 0).cmp(key));
    place.map(|place| place as u64).map_err(|_| 15)
}

/// Eight names of three letters.
const NAMES: [u8; 24] = [
    0xC1, 0xC4, 0xD4, 0xD9, 0xC5, 0xE3, 0xE5, 0xC5, 0xD5, 0xE2, 0xC1, 0xD3, 0xE3, 0xC1, 0xE7, 0xD7,
    0xC1, 0xE2, 0xC6, 0xC9, 0xD5, 0xC4, 0xC3, 0xD2,
];

/// Writes the REC record of a row.
fn write_rec(out: &mut [u8; 245], row: &Row) {
    *out = [SPACE; 245];
    out[..3].copy_from_slice(&[0xD9, 0xC5, 0xC3]);
    copy::<2>(out, 3, row, 0);
    copy::<3>(out, 5, row, 12);
    copy::<9>(out, 8, row, 2);
    copy::<15>(out, 17, row, 15);
    copy::<20>(out, 32, row, 30);
    copy::<10>(out, 52, row, 50);
    copy::<8>(out, 62, row, 65);
    out[70] = row[11];
    copy::<8>(out, 71, row, 186);
    let mut set = row[194];
    while set != 0 {
        let bit = set.trailing_zeros() as usize;
        set &= set - 1;
        copy::<3>(out, 81 + 3 * bit, &NAMES, 3 * bit);
    }
}

/// Writes the RCT record: TANF cases, other cases.
fn write_rct(out: &mut [u8; 245], state: &[u8; 2], date: &[u8; 8], cases: [u64; 2]) {
    *out = [SPACE; 245];
    out[..3].copy_from_slice(&[0xD9, 0xC3, 0xE3]);
    out[3..5].copy_from_slice(state);
    let numbers = [cases[0], cases[1], cases[0] + cases[1]];
    for (field, number) in out[5..32].chunks_exact_mut(9).zip(numbers) {
        let mut rest = number;
        for byte in field.iter_mut().rev() {
            *byte = ZERO + (rest % 10) as u8;
            rest /= 10;
        }
    }
    out[32..40].copy_from_slice(date);
}

/// Reconciliation: the number of REC records, or the refusal's number.
pub fn reconcile(
    master: &[u8],
    rows: usize,
    state: &[u8],
    date: &[u8],
    out: &mut [u8],
) -> Result<u64, u64> {
    let rows = sound_rows(master, rows)?;
    let state: &[u8; 2] = state.try_into().map_err(|_| 12u64)?;
    if field::state(state) == NO_STATE {
        return Err(12);
    }
    let date: &[u8; 8] = date.try_into().map_err(|_| 13u64)?;
    if !field::date(date) {
        return Err(13);
    }
    let reported = |row: &&Row| row[195] == SPACE && row[..2] == state[..];
    let mut cases = [0; 2];
    for row in rows.iter().filter(reported) {
        cases[usize::from(row[11] == 0xD5)] += 1;
    }
    let count = (cases[0] + cases[1]) as usize;
    let (places, _) = out.as_chunks_mut::<245>();
    if places.len() <= count {
        return Err(11);
    }
    for (place, row) in places.iter_mut().zip(rows.iter().filter(reported)) {
        write_rec(place, row);
    }
    write_rct(&mut places[count], state, date, cases);
    Ok(count as u64)
}
