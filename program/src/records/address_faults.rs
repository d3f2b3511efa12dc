//! What of wrong addresses is wrong: the library is asked about some parts with the others right, in one call about many records.
//! Code 14 says that a part at least is wrong, and each part is judged by itself. So parts that are right together are right each,
//! and where a part is wrong and all but one are right, it is that one.

use std::collections::BTreeMap;
use std::ops::Range;

use fantanolive::has_code;

use super::columns::{detail, Field};
use super::made_up_case::{record_of, Judge};

/// The code of a wrong address.
pub const ADDRESS: u32 = 14;

/// An address that is right, by its parts: the lines, the city, the state and the ZIP code. The fields of a part stand one
/// behind the other.
static PARTS: [(&[Field], &str); 4] = [
    (&[detail::ADDRESS_LINE_1, detail::ADDRESS_LINE_2], "A"),
    (&[detail::CITY], "A"),
    (&[detail::ADDRESS_STATE], "OH"),
    (&[detail::ZIP], "000000000"),
];

/// The place of the state among them.
const STATE: usize = 2;

/// Where a part stands in a record.
fn bytes_of(place: usize) -> Range<usize> {
    let fields = PARTS[place].0;
    fields[0].first - 1..fields[fields.len() - 1].last
}

/// Some of the parts, a bit each, the lowest being that of the lines.
#[derive(Clone, Copy, Debug, Default, PartialEq, Eq)]
pub struct Parts(u8);

impl Parts {
    const NONE: Parts = Parts(0);

    fn has(self, place: usize) -> bool {
        self.0 >> place & 1 == 1
    }

    fn with(self, other: Parts) -> Parts {
        Parts(self.0 | other.0)
    }

    fn without(self, other: Parts) -> Parts {
        Parts(self.0 & !other.0)
    }

    /// The last of them.
    fn last(self) -> Parts {
        match self.0.checked_ilog2() {
            Some(place) => Parts(1 << place),
            None => Parts::NONE,
        }
    }

    fn places(self) -> impl Iterator<Item = usize> {
        (0..PARTS.len()).filter(move |&place| self.has(place))
    }

    /// Their fields.
    pub fn fields(self) -> impl Iterator<Item = &'static Field> {
        self.places().flat_map(|place| PARTS[place].0)
    }
}

/// What the library said of parts in records of one type, so that it is not asked again about the same.
struct Said {
    /// Of each state.
    states: Vec<Option<bool>>,
    /// Of each other part the values that it was asked about last: one that is right, and one that is wrong where one is known.
    right: Vec<u8>,
    wrong: Vec<u8>,
    known: Parts,
}

/// The place of a record's state among all that there could be.
fn state_of(record: &[u8]) -> usize {
    let state = &record[bytes_of(STATE)];
    usize::from(state[0]) << 8 | usize::from(state[1])
}

impl Said {
    fn new(right: &[u8]) -> Said {
        Said {
            states: vec![None; 1 << 16],
            right: right.to_vec(),
            wrong: right.to_vec(),
            known: Parts::NONE,
        }
    }

    /// Whether a part is wrong; none where it is not known.
    fn is_wrong(&self, place: usize, record: &[u8]) -> Option<bool> {
        let part = bytes_of(place);
        if place == STATE {
            self.states[state_of(record)]
        } else if record[part.clone()] == self.right[part.clone()] {
            Some(false)
        } else if self.known.has(place) && record[part.clone()] == self.wrong[part] {
            Some(true)
        } else {
            None
        }
    }

    fn note(&mut self, parts: Parts, record: &[u8], is_wrong: bool) {
        if is_wrong {
            self.known = self.known.with(parts);
        }
        for place in parts.places() {
            let part = bytes_of(place);
            match is_wrong {
                _ if place == STATE => self.states[state_of(record)] = Some(is_wrong),
                true => self.wrong[part.clone()].copy_from_slice(&record[part]),
                false => self.right[part.clone()].copy_from_slice(&record[part]),
            }
        }
    }
}

/// Parts of a record that are still to be told: its place, and whether one of them at least is wrong.
struct Open {
    place: usize,
    parts: Parts,
    has_wrong: bool,
}

impl Open {
    /// The parts to ask about together: all, or all but the last where one is known to be wrong.
    fn asked(&self) -> Parts {
        match self.has_wrong {
            true => self.parts.without(self.parts.last()),
            false => self.parts,
        }
    }
}

pub struct AddressFaults {
    /// A record with the address that is right.
    right: Vec<u8>,
    /// By the type of records.
    said: BTreeMap<u8, Said>,
    judge: Judge,
}

impl AddressFaults {
    pub fn new() -> AddressFaults {
        AddressFaults {
            right: record_of("", &PARTS.map(|(fields, text)| (fields[0], text))),
            said: BTreeMap::new(),
            judge: Judge::default(),
        }
    }

    /// What was said of records of this one's type.
    fn said(&mut self, record: &[u8]) -> &mut Said {
        let kind = detail::TRANSACTION_TYPE.of(record)[0];
        let new = || Said::new(&self.right);
        self.said.entry(kind).or_insert_with(new)
    }

    /// The wrong parts of each of some records, which all have code 14.
    pub fn wrong_parts(&mut self, records: &[&[u8]]) -> Vec<Parts> {
        let mut wrong = vec![Parts::NONE; records.len()];
        let mut open = Vec::with_capacity(records.len());
        for (place, record) in records.iter().enumerate() {
            let said = self.said(record);
            let mut parts = Parts::NONE;
            for part in 0..PARTS.len() {
                match said.is_wrong(part, record) {
                    Some(true) => wrong[place].0 |= 1 << part,
                    Some(false) => {}
                    None => parts.0 |= 1 << part,
                }
            }
            let has_wrong = wrong[place] == Parts::NONE;
            open.push(Open {
                place,
                parts,
                has_wrong,
            });
        }
        while !open.is_empty() {
            open = self.round(records, &open, &mut wrong);
        }
        wrong
    }

    /// Asks about open parts of all records at once. The answer is what is open then.
    fn round(&mut self, records: &[&[u8]], open: &[Open], wrong: &mut [Parts]) -> Vec<Open> {
        let answers = self.ask(records, open);
        let mut rest = Vec::new();
        for (open, has_wrong) in open.iter().zip(answers) {
            let (place, record) = (open.place, records[open.place]);
            let asked = open.asked();
            let last = open.parts.without(asked);
            if has_wrong {
                let told = |parts, has_wrong| Open {
                    place,
                    parts,
                    has_wrong,
                };
                rest.extend([told(asked, true), told(last, false)]);
                continue;
            }
            // those asked about are right; the last, if it was left out, is the wrong one
            let said = self.said(record);
            said.note(asked, record, false);
            said.note(last, record, true);
            wrong[place] = wrong[place].with(last);
        }
        rest
    }

    /// Whether one of the parts to ask about is wrong, of each record. Where there are none nothing is.
    fn ask(&mut self, records: &[&[u8]], open: &[Open]) -> Vec<bool> {
        for open in open.iter().filter(|open| open.asked() != Parts::NONE) {
            let record = records[open.place];
            let probe = self.judge.add(&self.right);
            let kind = detail::TRANSACTION_TYPE;
            kind.set(probe, kind.of(record));
            for place in open.asked().places() {
                let part = bytes_of(place);
                probe[part.clone()].copy_from_slice(&record[part]);
            }
        }
        let mut verdicts = self.judge.verdicts().iter();
        let mut is_wrong = || verdicts.next().is_some_and(|v| has_code(*v, ADDRESS));
        let answer = |open: &Open| open.asked() != Parts::NONE && is_wrong();
        open.iter().map(answer).collect()
    }
}

#[cfg(test)]
mod tests {
    use super::super::made_up_case::judged;
    use super::*;
    use crate::code_page::argument;

    impl AddressFaults {
        /// The wrong fields of a record; none where it does not have the code.
        fn wrong_fields(&mut self, record: &[u8]) -> Vec<Field> {
            let parts = match has_code(judged(record).0, ADDRESS) {
                true => self.wrong_parts(&[record])[0],
                false => Parts::NONE,
            };
            parts.fields().copied().collect()
        }
    }

    fn wrong(kind: &str, address: &[(Field, &str)]) -> Vec<&'static str> {
        let record = record_of(kind, address);
        let fields = AddressFaults::new().wrong_fields(&record);
        fields.iter().map(|field| field.name).collect()
    }

    #[test]
    fn parts_of_an_address() {
        let (line, city) = (
            (detail::ADDRESS_LINE_2, "1 MAIN ST"),
            (detail::CITY, "AKRON"),
        );
        let (state, zip) = ((detail::ADDRESS_STATE, "OH"), (detail::ZIP, "44301"));
        assert_eq!(wrong("Z", &[line, city, state, zip]), [""; 0]);
        let lines = ["Obligor Address Line 1", "Obligor Address Line 2"];
        assert_eq!(wrong("Z", &[city, state, zip]), lines);
        assert_eq!(wrong("Z", &[line, state, zip]), ["Obligor City"]);
        let other = [(detail::ADDRESS_STATE, "XX"), (detail::ZIP, "4430")];
        let both = ["Obligor State", "Obligor Zip Code"];
        assert_eq!(wrong("Z", &[&[line, city][..], &other].concat()), both);
        // an A may leave parts blank, but not send a wrong one
        assert_eq!(wrong("A", &[]), [""; 0]);
        assert_eq!(wrong("A", &other), both);
        assert_eq!(wrong("A", &other[1..]), ["Obligor Zip Code"]);
    }

    /// Values of each part, right and wrong ones, and types.
    const VALUES: [&[&str]; 4] = [
        &["A", ""],
        &["AKRON", ""],
        &["OH", "XX", ""],
        &["44301", "4430", ""],
    ];

    /// A detail whose values and type are chosen by a number.
    fn chosen(number: usize) -> Vec<u8> {
        let mut rest = number;
        let mut next = |count: usize| {
            let place = rest % count;
            rest /= count;
            place
        };
        let fields = [0, 1, 2, 3].map(|part| {
            let values = VALUES[part];
            (PARTS[part].0[0], values[next(values.len())])
        });
        record_of(["A", "Z", "M", "X", ""][next(5)], &fields)
    }

    /// What the library says of each part of a record by itself.
    fn by_itself(record: &[u8]) -> Vec<Field> {
        let is_wrong = |part: &&(&[Field], &str)| {
            let right = PARTS.map(|(fields, text)| (fields[0], text));
            let mut probe = record_of("", &right);
            for field in [detail::TRANSACTION_TYPE].iter().chain(part.0) {
                field.set(&mut probe, field.of(record));
            }
            has_code(judged(&probe).0, ADDRESS)
        };
        let wrong = PARTS.iter().filter(is_wrong);
        wrong.flat_map(|(fields, _)| *fields).copied().collect()
    }

    #[test]
    fn one_behind_the_other_as_by_themselves() {
        for step in [1, 7, 30, 179] {
            let mut faults = AddressFaults::new();
            for number in (0..180).map(|number| number * step % 180) {
                let record = chosen(number);
                let found = faults.wrong_fields(&record);
                assert_eq!(found, by_itself(&record), "{number}");
            }
        }
    }

    #[test]
    fn many_at_once_as_by_themselves() {
        let mut chance = 7u64;
        let mut below = |limit: usize| {
            chance = chance.wrapping_mul(6_364_136_223_846_793_005);
            chance = chance.wrapping_add(1);
            (chance >> 33) as usize % limit
        };
        let mut faults = AddressFaults::new();
        for _ in 0..100 {
            let mut records: Vec<Vec<u8>> = (0..below(9)).map(|_| chosen(below(180))).collect();
            for record in &mut records {
                // a part that differs from record to record
                let part = bytes_of(below(4));
                let text = format!("{:<60}", below(100_000));
                record[part.clone()].copy_from_slice(&argument(text.as_bytes())[..part.len()]);
            }
            records.retain(|record| has_code(judged(record).0, ADDRESS));
            let records: Vec<&[u8]> = records.iter().map(Vec::as_slice).collect();
            let found = faults.wrong_parts(&records);
            for (record, parts) in records.iter().zip(found) {
                let fields: Vec<Field> = parts.fields().copied().collect();
                assert_eq!(fields, by_itself(record));
            }
        }
    }
}
