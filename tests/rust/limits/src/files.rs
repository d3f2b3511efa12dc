//! Refusals of contact and collection files that have as many records as there can be.

use fantanolive::raw;
use generator::contacts::CONTACT;
use generator::posting::LINE;
use generator::text::{digits, put, put_text, SPACE};
use sparse::{all, Mapping};

use crate::{answer, MOST};

/// Zeros are faulty records, whose key the table lacks: each asks for space.
pub fn contact_refusals() {
    let file = Mapping::zeros((MOST + 1) * CONTACT);
    let mut table = Mapping::zeros((MOST + 1) * CONTACT);
    let mut list = vec![0; MOST + 1];
    for (records, space, numbers, expected) in [
        (MOST + 1, MOST + 1, MOST + 1, 18),
        (MOST + 1, 0, 0, 18),
        (MOST, 0, 0, 19),
        (MOST, MOST - 1, MOST, 19),
        (MOST, MOST, MOST - 1, 19),
    ] {
        let (file, table) = (&file[..records * CONTACT], &mut table[..space * CONTACT]);
        let mut result = [77; 2];
        let given = raw::contacts_update(table, 0, file, &mut list[..numbers], &mut result);
        assert_eq!((given, result), (expected, [77; 2]), "{records} records");
        let done = reference::contacts::update(table, 0, file, &mut list[..numbers]);
        assert_eq!(answer(done), expected);
    }
    assert!(list.iter().all(|&number| number == 0) && all(&table, 0));
}

/// The last record of a collection file: lines with an adjustment, with a collection.
pub fn total(adjustments: usize, collections: usize) -> [u8; LINE] {
    let mut last = [SPACE; LINE];
    put_text(&mut last, 6, "TOTAL    ");
    put(&mut last, 35, &digits(adjustments as u64, 15));
    put(&mut last, 50, &digits(collections as u64, 15));
    last
}

/// Zeros are lines without an amount.
pub fn posting_refusals() {
    let mut file = Mapping::zeros((MOST + 2) * LINE);
    file[(MOST + 1) * LINE..].copy_from_slice(&total(0, 0));
    let mut list = vec![0; MOST];
    for (from, numbers, expected) in [(0, MOST, 22), (1, MOST - 1, 24), (2, MOST - 2, 24)] {
        let file = &file[from * LINE..];
        let mut listed = 77;
        let given = raw::post(&mut [], 0, file, &mut list[..numbers], &mut listed);
        assert_eq!((given, listed), (expected, 77), "without the first {from}");
        assert_eq!(
            answer(reference::post(&mut [], 0, file, &mut list[..numbers])),
            expected
        );
    }
    // Without the last record: 23 where there aren't too many.
    for (records, expected) in [(MOST + 2, 22), (MOST + 1, 23)] {
        let file = &Mapping::zeros(records * LINE);
        assert_eq!(raw::post(&mut [], 0, file, &mut list, &mut 0), expected);
        assert_eq!(
            answer(reference::post(&mut [], 0, file, &mut list)),
            expected
        );
    }
    assert!(list.iter().all(|&number| number == 0));
}
