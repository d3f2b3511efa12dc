//! Large masters and batches, quickly made: keys are numbered, and rise with their number.

use crate::records::{Record, RECORD};
use crate::rng::Rng;
use crate::rows::ROW;
use crate::text::{blank, byte, digits, put, put_text, SPACE};
use crate::world::Key;

/// The first number that sixteen bits don't hold; large cases have about so many rows or records.
pub const SIXTEEN_BITS: usize = 65_536;

/// The SSN and case type of a key number (below some 160 million).
fn numbered(number: usize) -> ([u8; 9], u8) {
    let place = number / 2;
    let serial = place % 9999 + 1;
    let group = place / 9999 % 99 + 1;
    let area = place / (9999 * 99) + 100;
    let mut rest = area * 1_000_000 + group * 10_000 + serial;
    let mut ssn = [0xF0; 9];
    for digit in ssn.iter_mut().rev() {
        *digit += (rest % 10) as u8;
        rest /= 10;
    }
    (ssn, if number.is_multiple_of(2) { 0xC1 } else { 0xD5 })
}

/// The key of a number.
pub fn key(state: [u8; 2], number: usize) -> Key {
    let (ssn, case_type) = numbered(number);
    let mut key = [case_type; 12];
    put(&mut key, 1, &state);
    put(&mut key, 3, &ssn);
    key
}

/// `count` live rows with the key numbers 0, `step`, 2 × `step` and on.
pub fn rows(state: [u8; 2], count: usize, step: usize) -> Vec<u8> {
    let mut master = vec![0; count * ROW];
    write_rows(&mut master, state, step);
    master
}

/// The same into a master, as many as it has places.
pub fn write_rows(master: &mut [u8], state: [u8; 2], step: usize) {
    write_rows_from(master, state, 0, step);
}

/// The same from the row of a place on.
pub fn write_rows_from(master: &mut [u8], state: [u8; 2], first: usize, step: usize) {
    let mut row = [SPACE; ROW];
    put(&mut row, 1, &state);
    put_text(&mut row, 13, "001CASE");
    put_text(&mut row, 31, "SMITH");
    put_text(&mut row, 51, "JOHN");
    put_text(&mut row, 66, "00001000");
    put_text(&mut row, 79, "000000000000");
    put_text(&mut row, 91, "12 MAIN STREET");
    put_text(&mut row, 151, "COLUMBUS");
    put_text(&mut row, 176, "OH43004");
    put_text(&mut row, 187, "20070131");
    row[194] = 0;
    put_text(&mut row, 197, "50");
    for (at, place) in (first..).zip(master.chunks_exact_mut(ROW)) {
        let (ssn, case_type) = numbered(at * step);
        put(&mut row, 3, &ssn);
        row[11] = case_type;
        place.copy_from_slice(&row);
    }
}

fn start(state: [u8; 2], number: usize, kind: u8) -> Record {
    let mut record = [SPACE; RECORD];
    let (ssn, case_type) = numbered(number);
    put(&mut record, 1, &state);
    put(&mut record, 6, &ssn);
    record[73] = case_type;
    record[72] = byte(kind);
    put_text(&mut record, 30, "SMITH");
    record
}

/// A right A record.
pub fn add(state: [u8; 2], number: usize) -> Record {
    let mut record = start(state, number, b'A');
    put_text(&mut record, 3, "002");
    put_text(&mut record, 50, "JANE");
    put_text(&mut record, 65, "00000500");
    put_text(&mut record, 84, "7 HIGH STREET");
    put_text(&mut record, 144, "DAYTON");
    put_text(&mut record, 169, "OH45401");
    put_text(&mut record, 180, "20070228");
    put_text(&mut record, 188, "RET,PAS FIN");
    record
}

/// A right record of one of the types given, for a live row of that name; the new name of B has
/// the same first four characters.
pub fn change(rng: &mut Rng, state: [u8; 2], number: usize, types: &[u8]) -> Record {
    let kind = rng.pick(types);
    let mut record = start(state, number, kind);
    match kind {
        b'M' => put(&mut record, 65, &digits(rng.between(25, 9999) as u64, 8)),
        b'C' => put_text(&mut record, 15, "NEWCASE"),
        b'B' => put_text(&mut record, 30, "SMITHSON            JILL"),
        b'L' => put_text(&mut record, 3, "002"),
        b'R' => put_text(&mut record, 188, "ADM,TAX"),
        b'Z' => {
            put_text(&mut record, 84, "9 LOW STREET");
            put_text(&mut record, 144, "TOLEDO");
            put_text(&mut record, 169, "OH43601");
        }
        b'S' => {
            put_text(&mut record, 65, "00000123");
            put_text(&mut record, 80, "2006");
        }
        b'T' => put_text(&mut record, 75, "WV123"),
        _ => {}
    }
    record
}

/// Four letters by a number below 26 to the power 4.
fn name(number: usize) -> Vec<u8> {
    let letter = |place: u32| byte(b'A' + (number / 26usize.pow(place) % 26) as u8);
    (0..4).map(letter).collect()
}

/// Right records of one key, half of them B with different names, half M, in scattered order. The
/// names of the Ms are those of Bs if `given`, else of none.
pub fn renames(
    rng: &mut Rng,
    state: [u8; 2],
    number: usize,
    count: usize,
    given: bool,
) -> Vec<Record> {
    let half = count / 2;
    let first = if given { 0 } else { half };
    let mut details: Vec<Record> = (0..count)
        .map(|at| {
            if at < half {
                let mut record = start(state, number, b'B');
                put_text(&mut record, 30, "                    JILL");
                put(&mut record, 30, &name(at));
                record
            } else {
                let mut record = change(rng, state, number, b"M");
                blank(&mut record, 30, 49);
                put(&mut record, 30, &name(first + rng.below(half)));
                record
            }
        })
        .collect();
    rng.shuffle(&mut details);
    details
}
