//! Two reconciliation files compared by key: the one that a master gives, and one that was received. Fields are compared as they
//! stand.

use std::cmp::Ordering;

use fantanolive::{KEY, RECORD};

use super::columns::{rec, Field, Layout};

pub type Key = [u8; KEY];

/// The fields of a REC record that make its key.
pub const KEY_FIELDS: [Field; 3] = [rec::STATE, rec::SSN, rec::CASE_TYPE];

/// The fields in which two files can differ: not the filler, nor those that the federal side alone fills.
pub const COMPARED_FIELDS: Layout = &[
    rec::LOCAL_CODE,
    rec::CASE_ID,
    rec::LAST_NAME,
    rec::FIRST_NAME,
    rec::ARREARAGE,
    rec::NOTICE_DATE,
    rec::EXCLUSION_ADM,
    rec::EXCLUSION_RET,
    rec::EXCLUSION_VEN,
    rec::EXCLUSION_SAL,
    rec::EXCLUSION_TAX,
    rec::EXCLUSION_PAS,
    rec::EXCLUSION_FIN,
    rec::EXCLUSION_DCK,
];

/// The key of a REC record.
pub fn key_of(record: &[u8]) -> Key {
    let mut key = [0; KEY];
    let bytes = KEY_FIELDS.iter().flat_map(|field| field.of(record));
    for (place, &byte) in key.iter_mut().zip(bytes) {
        *place = byte;
    }
    key
}

/// What was found of a case: the numbers of its records here and there, the first being 0.
#[derive(Clone, Copy, Debug, PartialEq, Eq)]
pub enum Found {
    OnlyHere(usize),
    OnlyThere(usize),
    Differs(usize, usize),
    /// A further record of a key that was there already.
    Again(usize),
}

/// Two files, without their last records.
pub struct Compared<'a> {
    pub here: &'a [u8],
    pub there: &'a [u8],
    /// In order of key.
    pub found: Vec<Found>,
    /// The cases that are the same.
    pub same: usize,
}

fn record(records: &[u8], number: usize) -> &[u8] {
    &records[number * RECORD..][..RECORD]
}

impl Compared<'_> {
    pub fn of<'a>(here: &'a [u8], there: &'a [u8]) -> Compared<'a> {
        let mut compared = Compared {
            here,
            there,
            found: Vec::new(),
            same: 0,
        };
        let ours = in_order(here);
        let theirs = in_order(there);
        let (mut one, mut other) = (ours.iter().peekable(), theirs.iter().peekable());
        let mut last: Option<Key> = None;
        loop {
            let keys = (one.peek().map(|o| o.0), other.peek().map(|o| o.0));
            let order = match keys {
                (None, None) => return compared,
                (Some(_), None) => Ordering::Less,
                (None, Some(_)) => Ordering::Greater,
                (Some(here), Some(there)) => here.cmp(&there),
            };
            let here = (order != Ordering::Greater).then(|| one.next()).flatten();
            let there = (order != Ordering::Less).then(|| other.next()).flatten();
            let key = here.or(there).map(|(key, _)| *key);
            let is_again = there.is_some() && here.is_none() && key == last;
            compared.take(here.map(|(_, n)| *n), there.map(|(_, n)| *n), is_again);
            last = key;
        }
    }

    fn take(&mut self, here: Option<u32>, there: Option<u32>, is_again: bool) {
        let found = match (here.map(|n| n as usize), there.map(|n| n as usize)) {
            (Some(here), None) => Found::OnlyHere(here),
            (None, Some(there)) if is_again => Found::Again(there),
            (None, Some(there)) => Found::OnlyThere(there),
            (Some(here), Some(there)) if self.differing(here, there).next().is_some() => {
                Found::Differs(here, there)
            }
            _ => {
                self.same += 1;
                return;
            }
        };
        self.found.push(found);
    }

    pub fn here(&self, number: usize) -> &[u8] {
        record(self.here, number)
    }

    pub fn there(&self, number: usize) -> &[u8] {
        record(self.there, number)
    }

    /// The fields in which two records differ.
    pub fn differing(
        &self,
        here: usize,
        there: usize,
    ) -> impl Iterator<Item = &'static Field> + '_ {
        let (here, there) = (self.here(here), self.there(there));
        let differs = move |field: &&Field| field.of(here) != field.of(there);
        COMPARED_FIELDS.iter().filter(differs)
    }

    /// How many cases were found so.
    pub fn count(&self, is_so: fn(&Found) -> bool) -> u64 {
        self.found.iter().filter(|found| is_so(found)).count() as u64
    }
}

/// The keys of records with their numbers, in rising order; records of one key stay in theirs.
fn in_order(records: &[u8]) -> Vec<(Key, u32)> {
    let keys = records.chunks_exact(RECORD).map(key_of);
    let mut list: Vec<(Key, u32)> = keys.zip(0..).collect();
    if !list.is_sorted() {
        list.sort_unstable();
    }
    list
}

#[cfg(test)]
mod tests {
    use super::super::field::text_in;
    use super::*;

    fn a_record(ssn: &str, amount: &str) -> Vec<u8> {
        text_in(RECORD, &[(rec::SSN, ssn), (rec::ARREARAGE, amount)])
    }

    #[test]
    fn cases_here_there_and_in_both() {
        let here = [a_record("1", "A"), a_record("2", "A"), a_record("4", "A")].concat();
        let there = ["4", "2", "3", "2", "5", "3"]
            .map(|ssn| a_record(ssn, if ssn == "4" { "B" } else { "A" }))
            .concat();
        let compared = Compared::of(&here, &there);
        let found = [
            Found::OnlyHere(0),
            Found::Again(3),
            Found::OnlyThere(2),
            Found::Again(5),
            Found::Differs(2, 0),
            Found::OnlyThere(4),
        ];
        assert_eq!((compared.found.as_slice(), compared.same), (&found[..], 1));
        let fields: Vec<&str> = compared.differing(2, 0).map(|field| field.name).collect();
        assert_eq!(fields, ["Current Arrearage Amount"]);
        let none = Compared::of(&[], &[]);
        assert!(none.found.is_empty() && none.same == 0);
    }
}
