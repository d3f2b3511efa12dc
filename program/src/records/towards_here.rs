//! The records that lead the other side's copy of a case to what a master has: the library makes them from the master's row, with
//! the other side's values in it, to the row as it is.

use fantanolive::{Refusal, ROW};

use super::case_change::CaseChange;
use super::columns::{rec, row, Field};
use crate::code_page::argument;

/// The exclusion words of a REC record, the lowest bit of a row's set first.
const WORDS: [(Field, &str); 8] = [
    (rec::EXCLUSION_ADM, "ADM"),
    (rec::EXCLUSION_RET, "RET"),
    (rec::EXCLUSION_VEN, "VEN"),
    (rec::EXCLUSION_SAL, "SAL"),
    (rec::EXCLUSION_TAX, "TAX"),
    (rec::EXCLUSION_PAS, "PAS"),
    (rec::EXCLUSION_FIN, "FIN"),
    (rec::EXCLUSION_DCK, "DCK"),
];

/// The set of a REC record's exclusions.
fn set_of(record: &[u8]) -> u8 {
    let bits = WORDS.iter().enumerate();
    let named = bits.filter(|(_, (field, word))| field.of(record) == argument(word.as_bytes()));
    named.fold(0, |set, (bit, _)| set | 1 << bit)
}

/// The records that lead from the other side's record of a case to a row of the master; a row that is deleted is deleted there.
/// Amounts go in whole dollars. The name stays as it is there, since no such record changes it.
pub fn records_for(record: &[u8], ours: &[u8], locals: &[u8]) -> Result<Vec<u8>, Refusal> {
    let mut theirs = ours[..ROW].to_vec();
    for (field, from) in [
        (row::LOCAL_CODE, rec::LOCAL_CODE),
        (row::CASE_ID, rec::CASE_ID),
        (row::LAST_NAME, rec::LAST_NAME),
        (row::ARREARAGE, rec::ARREARAGE),
    ] {
        field.set(&mut theirs, from.of(record));
    }
    row::EXCLUSIONS.set(&mut theirs, &[set_of(record)]);
    row::STATUS.set(&mut theirs, &argument(b" "));
    row::CENTS.set(&mut theirs, &argument(b"00"));
    let mut wanted = theirs.clone();
    for field in [
        row::LOCAL_CODE,
        row::CASE_ID,
        row::ARREARAGE,
        row::EXCLUSIONS,
        row::STATUS,
    ] {
        field.set(&mut wanted, field.of(ours));
    }
    if row::STATUS.of(ours) != argument(b" ") {
        // what is deleted there is not changed else
        wanted = theirs.clone();
        row::ARREARAGE.set(&mut wanted, &argument(b"00000000"));
        row::STATUS.set(&mut wanted, &argument(b"D"));
    }
    let change = CaseChange {
        row: theirs,
        wanted,
        locals: locals.to_vec(),
    };
    change.records()
}
