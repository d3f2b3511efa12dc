//! A case's row and the row that it is wanted to be: the records that lead there, and what of it no record leads to.

use fantanolive::{records_to, Refusal, RECORD, RECORDS};

use super::columns::{detail, row, Field};
use crate::code_page::argument;

pub struct CaseChange {
    pub row: Vec<u8>,
    pub wanted: Vec<u8>,
    /// The list of local codes.
    pub locals: Vec<u8>,
}

/// The fields that an M writes.
const BALANCE: &[Field] = &[row::ARREARAGE, row::CENTS, row::STATUS];

/// The types of the records that lead to a wanted row, each with the fields of the row that it writes.
const TYPES: [(&str, &[Field]); 4] = [
    ("C", &[row::CASE_ID]),
    ("L", &[row::LOCAL_CODE]),
    ("R", &[row::EXCLUSIONS]),
    ("M", BALANCE),
];

impl CaseChange {
    /// The records that lead there.
    pub fn records(&self) -> Result<Vec<u8>, Refusal> {
        self.records_towards(&self.wanted)
    }

    fn records_towards(&self, wanted: &[u8]) -> Result<Vec<u8>, Refusal> {
        let mut out = vec![0; RECORDS];
        let records = records_to(&self.row, wanted, &self.locals, &mut out)?;
        out.truncate(records as usize * RECORD);
        Ok(out)
    }

    /// Whether the refusal is one of the row as it is.
    pub fn is_of_row(&self, refusal: Refusal) -> bool {
        self.records_towards(&self.row) == Err(refusal)
    }

    /// What the library answers where these fields alone are as wanted.
    fn answer_to(&self, fields: &[Field]) -> Result<Vec<u8>, Refusal> {
        let mut wanted = self.row.clone();
        for field in fields {
            field.set(&mut wanted, field.of(&self.wanted));
        }
        self.records_towards(&wanted)
    }

    /// The fields whose wanted values are refused so by themselves; dollars, cents and status go together.
    pub fn refused_fields(&self, refusal: Refusal) -> Vec<Field> {
        let mut fields = Vec::new();
        for field in row::FIELDS {
            let is_balance = BALANCE.iter().any(|part| part.first == field.first);
            let together = if is_balance { BALANCE } else { &[*field] };
            let is_first = together[0].first == field.first;
            if is_first && self.answer_to(together) == Err(refusal) {
                fields.extend(together.iter().filter(|field| self.differs(field)));
            }
        }
        fields
    }

    fn differs(&self, field: &Field) -> bool {
        field.of(&self.row) != field.of(&self.wanted)
    }

    /// The fields of the row that a record changes.
    pub fn changed_by(&self, record: &[u8]) -> Vec<Field> {
        let is_of = |kind: &&str| argument(kind.as_bytes()) == detail::TRANSACTION_TYPE.of(record);
        let found = TYPES.iter().find(|(kind, _)| is_of(&kind));
        let written = found.map_or(&[][..], |(_, fields)| fields);
        let changed = written.iter().filter(|field| self.differs(field));
        changed.copied().collect()
    }
}
