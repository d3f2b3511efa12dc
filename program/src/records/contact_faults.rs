//! What of a faulty contact record is wrong: the library is asked about each part with the others right.

use fantanolive::{contacts_codes, Refusal, CONTACT};

use super::columns::{contact, Field};
use super::field::text_in;

/// A contact record that is good, by its parts: each is judged by itself.
static PARTS: [(&[Field], &str); 10] = [
    (&[contact::STATE], "OH"),
    (&[contact::LOCAL_CODE], "000"),
    (&[contact::TELEPHONE_1], "(301) 555-1212"),
    (&[contact::EXTENSION_1], ""),
    (&[contact::TELEPHONE_2], ""),
    (&[contact::EXTENSION_2], ""),
    (&[contact::AGENCY_NAME], "CHILD SUPPORT"),
    (
        &[
            contact::ADDRESS_LINE_1,
            contact::ADDRESS_LINE_2,
            contact::ADDRESS_LINE_3,
        ],
        "A",
    ),
    (&[contact::ADDRESS_LINE_4], "A"),
    (&[contact::FILLER], ""),
];

/// The record of these parts.
fn right() -> Vec<u8> {
    let parts = PARTS.map(|(fields, text)| (fields[0], text));
    text_in(CONTACT, &parts)
}

/// Whether the library takes a record: as a table of one, which has no faulty one.
fn is_good(record: &[u8]) -> bool {
    contacts_codes(record, 1, &[], &mut []) != Err(Refusal::WrongContacts)
}

/// What the library said of each part, so that it is not asked twice about the same.
pub struct ContactFaults {
    /// The record that is right.
    right: Vec<u8>,
    /// The parts that it was asked about last, and which of them were wrong.
    asked: Vec<u8>,
    wrong: [bool; PARTS.len()],
}

impl ContactFaults {
    pub fn new() -> ContactFaults {
        let right = right();
        ContactFaults {
            asked: right.clone(),
            wrong: [false; PARTS.len()],
            right,
        }
    }

    /// The fields of a record that are wrong with the others right.
    pub fn wrong_fields(&mut self, record: &[u8]) -> impl Iterator<Item = &'static Field> {
        if record != self.asked {
            self.ask(record);
        }
        let wrong = PARTS.iter().zip(self.wrong).filter(|(_, wrong)| *wrong);
        wrong.flat_map(|((fields, _), _)| *fields)
    }

    /// Asks the library about the parts that are others than before.
    fn ask(&mut self, record: &[u8]) {
        for (place, (fields, _)) in PARTS.iter().enumerate() {
            let is_asked = |field: &Field| field.of(record) == field.of(&self.asked);
            if !fields.iter().all(is_asked) {
                self.wrong[place] = self.is_wrong(fields, record);
            }
        }
    }

    /// Asks about a part.
    fn is_wrong(&mut self, fields: &[Field], record: &[u8]) -> bool {
        let mut probe = [0; CONTACT];
        probe.copy_from_slice(&self.right);
        for field in fields {
            field.set(&mut probe, field.of(record));
            field.set(&mut self.asked, field.of(record));
        }
        !is_good(&probe)
    }
}

#[cfg(test)]
mod tests {
    use super::*;

    fn with(fields: &[(Field, &str)]) -> Vec<u8> {
        let mut record = right();
        for (field, text) in fields {
            let width = field.last + 1 - field.first;
            let part = text_in(CONTACT, &[(*field, &format!("{text:<width$}"))]);
            field.set(&mut record, field.of(&part));
        }
        record
    }

    /// The columns at which the wrong fields begin.
    fn wrong(faults: &mut ContactFaults, record: &[u8]) -> Vec<usize> {
        faults
            .wrong_fields(record)
            .map(|field| field.first)
            .collect()
    }

    #[test]
    fn each_part_by_itself() {
        let mut faults = ContactFaults::new();
        assert!(is_good(&with(&[])) && wrong(&mut faults, &with(&[])).is_empty());
        for (field, text) in [
            (contact::STATE, "XX"),
            (contact::LOCAL_CODE, "0 1"),
            (contact::TELEPHONE_1, "301 555-1212"),
            (contact::EXTENSION_1, "1 2"),
            (contact::TELEPHONE_2, "(301)555-1212"),
            (contact::EXTENSION_2, "A"),
            (contact::AGENCY_NAME, "SUPPORT"),
            (contact::AGENCY_NAME, "IRS CHILD SUPPORT"),
            (contact::ADDRESS_LINE_4, ""),
            (contact::FILLER, "X"),
        ] {
            let record = with(&[(field, text)]);
            assert!(!is_good(&record));
            // asked twice, and with what was said before
            for _ in 0..2 {
                assert_eq!(wrong(&mut faults, &record), [field.first], "{text}");
            }
        }
        let record = with(&[(contact::ADDRESS_LINE_1, ""), (contact::STATE, "ZZ")]);
        assert_eq!(wrong(&mut faults, &record).len(), 4);
        assert!(wrong(&mut faults, &with(&[(contact::ADDRESS_LINE_2, "A")])).is_empty());
    }
}
