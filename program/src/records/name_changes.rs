//! The keys that have a B record among the details of a batch, and where their details stand. Keys and types are compared as
//! they stand.

use fantanolive::{KEY, RECORD};

use super::columns::{detail, Field};
use crate::code_page::argument;

/// The fields of a detail that make its key.
pub const KEY_FIELDS: [Field; 3] = [detail::STATE, detail::SSN, detail::CASE_TYPE];

type Key = [u8; KEY];

/// A key with a B record: the first and the last of its details and its first B, by their numbers, the first detail being 0.
#[derive(Debug)]
pub struct Renamed {
    key: Key,
    pub first: usize,
    pub last: usize,
    pub name_change: usize,
}

fn key_of(record: &[u8]) -> Key {
    let mut key = [0; KEY];
    let bytes = KEY_FIELDS.iter().flat_map(|field| field.of(record));
    for (place, &byte) in key.iter_mut().zip(bytes) {
        *place = byte;
    }
    key
}

/// The keys of the B records, in order, each once with its first B.
fn with_name_change(details: &[u8]) -> Vec<Renamed> {
    let name_change = argument(b"B");
    let is_one = |(_, record): &(usize, &[u8])| detail::TRANSACTION_TYPE.of(record) == name_change;
    let records = details.chunks_exact(RECORD).enumerate().filter(is_one);
    let mut list: Vec<Renamed> = records
        .map(|(number, record)| Renamed {
            key: key_of(record),
            first: number,
            last: number,
            name_change: number,
        })
        .collect();
    // the sort keeps the order of equal keys
    list.sort_by_key(|renamed| renamed.key);
    list.dedup_by_key(|renamed| renamed.key);
    list
}

/// The keys with a B record among details, in order of key.
pub fn renamed(details: &[u8]) -> Vec<Renamed> {
    let mut list = with_name_change(details);
    if list.is_empty() {
        return list;
    }
    for (number, record) in details.chunks_exact(RECORD).enumerate() {
        let key = key_of(record);
        if let Ok(at) = list.binary_search_by_key(&key, |renamed| renamed.key) {
            list[at].first = list[at].first.min(number);
            list[at].last = list[at].last.max(number);
        }
    }
    list
}

#[cfg(test)]
mod tests {
    use super::*;

    /// A detail of a type with an SSN of equal digits.
    pub fn detail(kind: u8, digit: u8) -> Vec<u8> {
        let mut record = vec![0x40; RECORD];
        record[5..14].fill(digit);
        record[72] = kind;
        record
    }

    #[test]
    fn keys_with_a_b_alone() {
        let (m, b) = (0xD4, 0xC2);
        let details = [(m, 1), (m, 2), (b, 1), (m, 3), (b, 1), (m, 1), (b, 0)];
        let details: Vec<u8> = details.iter().flat_map(|&(t, d)| detail(t, d)).collect();
        let found: Vec<_> = renamed(&details)
            .iter()
            .map(|key| (key.first, key.last, key.name_change))
            .collect();
        assert_eq!(found, [(6, 6, 6), (0, 5, 2)]);
        assert!(renamed(&detail(m, 1)).is_empty() && renamed(&[]).is_empty());
    }

    #[test]
    fn keys_are_state_ssn_and_case_type() {
        let whole = detail(0xC2, 1);
        for (place, is_key) in [(1, true), (2, false), (4, false), (5, true), (14, false)] {
            let mut other = detail(0xD4, 1);
            other[place] = 0;
            let keys = renamed(&[&whole[..], &other].concat());
            assert_eq!(keys[0].last, usize::from(!is_key), "{place}");
        }
        let mut other = detail(0xD4, 1);
        other[73] = 0;
        assert_eq!(renamed(&[whole, other].concat())[0].last, 0);
    }
}
