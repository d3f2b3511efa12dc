//! Document 02, item 4: the contact file (Chart A-3).

use std::collections::BTreeMap;

use crate::limits::MOST;
use crate::lookup::refusal_12;
use crate::text::{
    all_digits, columns, ebcdic, in_state_table, is_blank, is_digit, is_letter, HYPHEN, NO_LOCAL,
    SPACE,
};

pub const CONTACT: usize = 220;

const OPENING: u8 = 0x4D;
const CLOSING: u8 = 0x5D;

pub type Contact = [u8; CONTACT];
/// A record's state and code, sound or not.
pub type ContactKey = [u8; 5];
type Contacts = BTreeMap<ContactKey, Contact>;

/// "(301) 555-1212"
fn is_telephone(field: &[u8]) -> bool {
    columns(field, 1, 1) == [OPENING]
        && all_digits(columns(field, 2, 4))
        && columns(field, 5, 5) == [CLOSING]
        && columns(field, 6, 6) == [SPACE]
        && all_digits(columns(field, 7, 9))
        && columns(field, 10, 10) == [HYPHEN]
        && all_digits(columns(field, 11, 14))
}

/// "an extension is digits with only spaces behind", or blank
fn is_extension(field: &[u8]) -> bool {
    let digits = field.iter().take_while(|&&byte| is_digit(byte)).count();
    is_blank(&field[digits..])
}

fn contains(field: &[u8], words: &[u8]) -> bool {
    field.windows(words.len()).any(|window| window == words)
}

/// IRS or FMS is "a whole run of letters" of the field.
fn names_agency(field: &[u8]) -> bool {
    field
        .split(|&byte| !is_letter(byte))
        .any(|run| run == ebcdic(b"IRS") || run == ebcdic(b"FMS"))
}

/// The agency name and address lines 1 to 4.
fn name_and_lines(record: &[u8]) -> [&[u8]; 5] {
    [(42, 76), (77, 111), (112, 146), (147, 181), (182, 216)]
        .map(|(first, last)| columns(record, first, last))
}

/// What can be wrong with a record, each by its name.
pub type Fault = (&'static str, fn(&[u8]) -> bool);

pub const FAULTS: [Fault; 11] = [
    ("state", |record| !in_state_table(columns(record, 1, 2))),
    ("code", |record| !all_digits(columns(record, 3, 5))),
    ("telephone 1", |record| {
        !is_telephone(columns(record, 6, 19))
    }),
    ("extension 1", |record| {
        !is_extension(columns(record, 20, 23))
    }),
    ("telephone 2", |record| {
        let field = columns(record, 24, 37);
        !is_blank(field) && !is_telephone(field)
    }),
    ("extension 2", |record| {
        !is_extension(columns(record, 38, 41))
    }),
    ("no CHILD or FAMILY SUPPORT", |record| {
        let name = columns(record, 42, 76);
        !contains(name, &ebcdic(b"CHILD SUPPORT")) && !contains(name, &ebcdic(b"FAMILY SUPPORT"))
    }),
    ("IRS or FMS", |record| {
        name_and_lines(record).into_iter().any(names_agency)
    }),
    ("lines 1 to 3 blank", |record| {
        is_blank(columns(record, 77, 181))
    }),
    ("line 4 blank", |record| is_blank(columns(record, 182, 216))),
    ("filler", |record| !is_blank(columns(record, 217, 220))),
];

pub fn is_faulty(record: &[u8]) -> bool {
    FAULTS.iter().any(|(_, holds)| holds(record))
}

pub fn contact_key(record: &[u8]) -> ContactKey {
    let mut key = [SPACE; 5];
    key.copy_from_slice(columns(record, 1, 5));
    key
}

/// The table's records, the bytes behind the count left out.
fn records_of(table: &[u8], count: usize) -> impl Iterator<Item = &[u8]> + Clone {
    table.chunks_exact(CONTACT).take(count)
}

/// 18: "a .. table length no multiple of 220, .. a table count above its length ÷ 220, or a table
/// with a faulty record or out of strictly rising order"
pub fn refusal_18_table(table: &[u8], count: usize) -> bool {
    if !table.len().is_multiple_of(CONTACT) || count > table.len() / CONTACT {
        return true;
    }
    let records = records_of(table, count);
    let behind = records.clone().skip(1);
    records.clone().any(is_faulty)
        || records
            .zip(behind)
            .any(|(one, two)| contact_key(one) >= contact_key(two))
}

/// 18: "a file .. length no multiple of 220, a file over" the limit's records
pub fn refusal_18_file(file: &[u8]) -> bool {
    !file.len().is_multiple_of(CONTACT) || file.len() / CONTACT > MOST
}

/// 19: "a table without space for every record (faulty and repeated ones counted) whose key it
/// lacks at entry, or a list shorter than the records"
fn refusal_19(table: &[u8], contacts: &Contacts, records: &[&[u8]], list: &[u32]) -> bool {
    let lacking = records
        .iter()
        .filter(|record| !contacts.contains_key(&contact_key(record)))
        .count();
    contacts.len() + lacking > table.len() / CONTACT || list.len() < records.len()
}

fn contacts_of(table: &[u8], count: usize) -> Contacts {
    let mut contacts = Contacts::new();
    for record in records_of(table, count) {
        put_contact(&mut contacts, record);
    }
    contacts
}

/// "A record replaces whole the one of its state and code, or else is added."
fn put_contact(contacts: &mut Contacts, record: &[u8]) {
    let mut contact = [SPACE; CONTACT];
    contact.copy_from_slice(record);
    contacts.insert(contact_key(record), contact);
}

/// Reads a file into a table of `count` records: the new count of the table, and that of the list
/// of faulty records. Err holds the refusal's number.
pub fn update(
    table: &mut [u8],
    count: usize,
    file: &[u8],
    list: &mut [u32],
) -> Result<[u64; 2], u64> {
    if refusal_18_file(file) || refusal_18_table(table, count) {
        return Err(18);
    }
    let mut contacts = contacts_of(table, count);
    let records: Vec<&[u8]> = file.chunks_exact(CONTACT).collect();
    if refusal_19(table, &contacts, &records, list) {
        return Err(19);
    }
    let mut faulty = Vec::new();
    for (record, number) in records.iter().zip(1..=u32::MAX) {
        // "A faulty record is skipped and its number, from 1, goes to a list."
        if is_faulty(record) {
            faulty.push(number);
        } else {
            put_contact(&mut contacts, record);
        }
    }
    for (place, contact) in table.chunks_exact_mut(CONTACT).zip(contacts.values()) {
        place.copy_from_slice(contact);
    }
    list[..faulty.len()].copy_from_slice(&faulty);
    Ok([contacts.len() as u64, faulty.len() as u64])
}

/// "A second call writes the codes of one state but 000, three bytes each and rising, and its
/// result counts them."
pub fn codes(table: &[u8], count: usize, state: &[u8], out: &mut [u8]) -> Result<u64, u64> {
    if refusal_18_table(table, count) {
        return Err(18);
    }
    if refusal_12(state) {
        return Err(12);
    }
    let codes: Vec<&[u8]> = records_of(table, count)
        .filter(|record| columns(record, 1, 2) == state)
        .map(|record| columns(record, 3, 5))
        .filter(|&code| code != NO_LOCAL)
        .collect();
    // "19 for an output too short"
    if out.len() < 3 * codes.len() {
        return Err(19);
    }
    for (place, code) in out.chunks_exact_mut(3).zip(&codes) {
        place.copy_from_slice(code);
    }
    Ok(codes.len() as u64)
}
