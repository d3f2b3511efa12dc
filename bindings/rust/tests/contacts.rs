//! contacts_update and contacts_codes through the wrapper: the records of the C example, the codes as a list for apply, each
//! refusal with every buffer kept.

use fantanolive::{
    contacts_codes, contacts_update, to_ebcdic, ContactCounts, Refusal, CONTACT, LOCAL_CODE,
};

fn ebcdic(text: &str) -> Vec<u8> {
    let mut out = vec![0; text.len()];
    to_ebcdic(text.as_bytes(), &mut out).expect("the text has counterparts");
    out
}

/// A contact record (Chart A-3).
fn contact(key: &str, telephone: &str) -> Vec<u8> {
    ebcdic(&format!(
        "{key}{telephone:<14}{:22}{:<35}{:<105}{:<39}",
        "", "COUNTY CHILD SUPPORT AGENCY", "7 MAIN STREET", "COLUMBUS OH 43215"
    ))
}

/// OH007, OH000, OH003 (faulty) and OH001.
fn file() -> Vec<u8> {
    [
        contact("OH007", "(614) 555-0107"),
        contact("OH000", "(614) 555-0100"),
        contact("OH003", "614-555-0103"),
        contact("OH001", "(614) 555-0101"),
    ]
    .concat()
}

/// The table that the file leaves, with space for three more records.
fn table() -> Vec<u8> {
    let mut table = vec![0xAA; 6 * CONTACT];
    let mut faulty = [9; 5];
    let counts = contacts_update(&mut table, 0, &file(), &mut faulty);
    let expected = ContactCounts {
        contacts: 3,
        faulty: 1,
    };
    assert_eq!(counts, Ok(expected));
    assert_eq!(faulty, [3, 9, 9, 9, 9]);
    table
}

#[test]
fn a_file_into_an_empty_table() {
    let rising = [
        contact("OH000", "(614) 555-0100"),
        contact("OH001", "(614) 555-0101"),
        contact("OH007", "(614) 555-0107"),
        vec![0xAA; 3 * CONTACT],
    ];
    assert_eq!(table(), rising.concat());
}

#[test]
fn codes_of_a_state() {
    let mut out = vec![7; 3 * LOCAL_CODE];
    assert_eq!(contacts_codes(&table(), 3, &ebcdic("OH"), &mut out), Ok(2));
    assert_eq!(out, [ebcdic("001007"), vec![7; 3]].concat());
    assert_eq!(contacts_codes(&table(), 3, &ebcdic("NY"), &mut []), Ok(0));
}

#[test]
fn refusals_in_order() {
    let (file, mut list) = (file(), [9; 4]);
    let mut refused = |length: usize, count, file: &[u8], numbers: usize| {
        let mut table = vec![0xAA; length];
        let refusal = contacts_update(&mut table, count, file, &mut list[..numbers]);
        assert!(table.iter().all(|&b| b == 0xAA) && list == [9; 4]);
        refusal.expect_err("it is to be refused").number()
    };
    assert_eq!(refused(4 * CONTACT, 0, &file[1..], 4), 18);
    assert_eq!(refused(4 * CONTACT + 1, 0, &file, 4), 18);
    assert_eq!(refused(4 * CONTACT, 5, &file, 4), 18);
    assert_eq!(refused(4 * CONTACT, 1, &file, 4), 18);
    assert_eq!(refused(3 * CONTACT, 0, &file, 4), 19);
    assert_eq!(refused(4 * CONTACT, 0, &file, 3), 19);
}

#[test]
fn refusals_of_the_codes_in_order() {
    let (table, mut out) = (table(), [7; 5]);
    let mut refused = |table: &[u8], count, state: &str| {
        let refusal = contacts_codes(table, count, &ebcdic(state), &mut out);
        assert_eq!(out, [7; 5]);
        refusal.expect_err("it is to be refused")
    };
    assert_eq!(refused(&table[1..], 3, "OO"), Refusal::WrongContacts);
    assert_eq!(refused(&table, 4, "OO"), Refusal::WrongContacts);
    assert_eq!(refused(&table, 3, "OO"), Refusal::WrongState);
    assert_eq!(refused(&table, 3, "OHI"), Refusal::WrongState);
    assert_eq!(refused(&table, 3, "OH"), Refusal::ShortContacts);
}
