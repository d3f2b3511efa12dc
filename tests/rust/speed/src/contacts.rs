//! Keeping contacts, written for speed: a key is a number below 54,000, an array says for each
//! which record it has at the end, and the table is written once, from the back.

use crate::field::{at, state, word, NO_STATE, SPACE};
use crate::{vector, MOST};

type Contact = [u8; 220];

const KEYS: usize = 54_000;

/// The number of a sound key, which rises with it, or none.
#[inline(always)]
fn key(record: &Contact) -> Option<usize> {
    let place = state(at(record, 0));
    let code = &record[2..5];
    let digit = |at: usize| code[at].wrapping_sub(0xF0);
    let right = (place != NO_STATE) & (digit(0) < 10) & (digit(1) < 10) & (digit(2) < 10);
    let number = |at: usize| usize::from(digit(at));
    right.then(|| usize::from(place) * 1000 + number(0) * 100 + number(1) * 10 + number(2))
}

/// The signs of a telephone number, at their places.
const FORM: [u8; 16] = [0x4D, 0, 0, 0, 0x5D, SPACE, 0, 0, 0, 0x60, 0, 0, 0, 0, 0, 0];

/// Fourteen bytes from a place on have the form (301) 555-1212.
#[inline(always)]
fn telephone(record: &Contact, place: usize) -> bool {
    let bytes = at(record, place);
    let signs = vector::equal(bytes, &FORM) & 0x0231 == 0x0231;
    signs & (vector::digits(bytes) & 0x3DCE == 0x3DCE)
}

/// Four bytes from a place on are digits with only spaces behind, or blank.
#[inline(always)]
fn extension(record: &Contact, place: usize) -> bool {
    let bytes = at(record, place);
    let digits = vector::digits(bytes) & 15;
    (digits & (digits + 1) == 0) & (digits | vector::all(bytes, SPACE) & 15 == 15)
}

/// The bytes of the 35 from a place on that are a letter.
#[inline(always)]
fn places_of(record: &Contact, place: usize, letter: u8) -> u64 {
    let mask = |start: usize| u64::from(vector::all(at(record, place + start), letter));
    mask(0) | mask(16) << 16 | mask(19) << 19
}

/// The agency name contains CHILD SUPPORT or FAMILY SUPPORT.
#[inline(always)]
fn has_support(record: &Contact) -> bool {
    const SUPPORT: [u8; 7] = word(b"SUPPORT");
    const CHILD: [u8; 6] = word(b"CHILD ");
    const FAMILY: [u8; 7] = word(b"FAMILY ");
    // SU at these places; T ends the word at most with the field.
    let second = places_of(record, 41, 0xE4) >> 1;
    let mut left = places_of(record, 41, 0xE2) & second & ((1 << 29) - 1);
    while left != 0 {
        let place = 41 + left.trailing_zeros() as usize;
        left &= left - 1;
        if *at::<7>(record, place) == SUPPORT
            && (place >= 47 && *at::<6>(record, place - 6) == CHILD
                || place >= 48 && *at::<7>(record, place - 7) == FAMILY)
        {
            return true;
        }
    }
    false
}

/// R or M, and S behind it, stand somewhere in the name or the lines.
#[inline(always)]
fn may_name_agency(record: &Contact) -> bool {
    let mut found = 0;
    for block in 0..11 {
        let place = 41 + 16 * block;
        // The last block ends before the filler's last byte.
        let (one, two) = (at(record, place), at(record, place + 1));
        let first = vector::all(one, 0xD9) | vector::all(one, 0xD4);
        found |= first & vector::all(two, 0xE2);
    }
    found != 0
}

/// IRS or FMS is a whole run of letters of the name or of a line.
#[cold]
fn names_agency(record: &Contact) -> bool {
    const IRS: [u8; 3] = word(b"IRS");
    const FMS: [u8; 3] = word(b"FMS");
    record[41..216].chunks_exact(35).any(|field| {
        field
            .split(|&byte| !crate::field::letter(byte))
            .any(|run| run == IRS || run == FMS)
    })
}

/// From a place on, at least 16 bytes are spaces; the last sixteen may be tested twice.
#[inline(always)]
fn blank_from(record: &Contact, place: usize, length: usize) -> bool {
    let spaces = |start: usize| vector::all(at(record, start), SPACE) == 0xFFFF;
    (0..length / 16).all(|block| spaces(place + 16 * block)) && spaces(place + length - 16)
}

/// A record without fault, its key put aside.
#[inline(always)]
fn right(record: &Contact) -> bool {
    let second = telephone(record, 23) || vector::all(at(record, 23), SPACE) & 0x3FFF == 0x3FFF;
    telephone(record, 5)
        & extension(record, 19)
        & second
        & extension(record, 37)
        & (record[216..] == [SPACE; 4])
        && has_support(record)
        && !blank_from(record, 76, 105)
        && !blank_from(record, 181, 35)
        && !(may_name_agency(record) && names_agency(record))
}

const NONE: u32 = u32::MAX;
/// Set for a record of the file, else a place of the table.
const FILE: u32 = 1 << 31;
const AHEAD: usize = 8;

/// The keys of a table's records, or none where it isn't right.
fn table_keys(table: &[Contact]) -> Option<Vec<u32>> {
    let mut sources = vec![NONE; KEYS];
    let mut before = None;
    for (record, place) in table.iter().zip(0..) {
        let key = key(record)?;
        if before >= Some(key) || !right(record) {
            return None;
        }
        before = Some(key);
        sources[key] = place;
    }
    Some(sources)
}

/// Reads a file into a table: the new count and that of the faulty, or the refusal's number.
pub fn update(
    table: &mut [u8],
    count: usize,
    file: &[u8],
    list: &mut [u32],
) -> Result<[u64; 2], u64> {
    let (all, table_rest) = table.as_chunks_mut::<220>();
    let (records, file_rest) = file.as_chunks::<220>();
    if !table_rest.is_empty() || !file_rest.is_empty() || records.len() > MOST || count > all.len()
    {
        return Err(18);
    }
    let mut sources = table_keys(&all[..count]).ok_or(18u64)?;
    let mut faulty = Vec::new();
    let mut keys = Vec::with_capacity(records.len());
    let mut lacking = 0;
    for (record, number) in records.iter().zip(0..) {
        let own = key(record);
        lacking += usize::from(own.is_none_or(|key| sources[key] == NONE));
        match own.filter(|_| right(record)) {
            Some(key) => keys.push((key as u32, number)),
            None => faulty.push(number + 1),
        }
    }
    if count + lacking > all.len() || list.len() < records.len() {
        return Err(19);
    }
    for (key, number) in keys {
        sources[key as usize] = FILE | number;
    }
    let order: Vec<u32> = sources
        .into_iter()
        .filter(|&source| source != NONE)
        .collect();
    write(all, records, &order);
    list[..faulty.len()].copy_from_slice(&faulty);
    Ok([order.len() as u64, faulty.len() as u64])
}

/// Writes the records in key order, from the back: none moves down.
fn write(table: &mut [Contact], records: &[Contact], order: &[u32]) {
    for (place, &source) in order.iter().enumerate().rev() {
        if let Some(&next) = place.checked_sub(AHEAD).and_then(|at| order.get(at)) {
            if let Some(record) = records.get((next ^ FILE) as usize) {
                vector::fetch_all(record);
            }
        }
        if source & FILE != 0 {
            table[place] = records[(source ^ FILE) as usize];
        } else if source as usize != place {
            table[place] = table[source as usize];
        }
    }
}
