//! What a reconciliation file that was received says of itself, against its records. Fields are compared as they stand.

use fantanolive::RECORD;

use super::columns::{rct, rec};
use super::field::Form;
use crate::code_page::argument;
use crate::failure::{counted, grouped};

/// Notes on a file's records and its RCT record: counts that differ, and another state than the one asked for.
pub fn notes_on(records: &[u8], last: &[u8], state: &str, form: &Form) -> Vec<String> {
    let mut notes = of_counts(records, last, form);
    let wanted = argument(state.as_bytes());
    if rct::STATE.of(last) != wanted {
        let (stated, columns) = (form.field(&rct::STATE, last), rct::STATE.columns());
        notes.push(format!(
            "the RCT record is of state '{stated}' ({columns}), and --state is {state}"
        ));
    }
    let numbered = || (1u64..).zip(records.chunks_exact(RECORD));
    let mut others = numbered().filter(|(_, record)| rec::STATE.of(record) != wanted);
    if let Some((first, record)) = others.next() {
        let count = grouped(1 + others.count() as u64);
        let all = counted(numbered().count() as u64, "record");
        let (first, other) = (grouped(first), form.field(&rec::STATE, record));
        notes.push(format!(
            "{count} of {all} have another state than {state}, record {first} the first: '{other}'"
        ));
    }
    notes
}

/// The counts that the RCT record states and the records don't have.
fn of_counts(records: &[u8], last: &[u8], form: &Form) -> Vec<String> {
    let of_type = |case_type: &[u8]| {
        let case_type = argument(case_type);
        let records = records.chunks_exact(RECORD);
        let of_it = records.filter(|record| rec::CASE_TYPE.of(record) == case_type);
        of_it.count() as u64
    };
    let all = (records.len() / RECORD) as u64;
    let counts = [
        (rct::TANF, of_type(b"A")),
        (rct::NON_TANF, of_type(b"N")),
        (rct::TOTAL, all),
    ];
    let mut notes = Vec::new();
    for (field, count) in counts {
        let text = form.field(&field, last);
        let stated = text.parse::<u64>().ok();
        if stated != Some(count) {
            let stated = stated.map_or(format!("'{text}'"), grouped);
            let (name, columns, count) = (field.name, field.columns(), grouped(count));
            notes.push(format!(
                "the RCT record states {stated} as {name} ({columns}), and the file has {count}: is it whole?"
            ));
        }
    }
    notes
}

#[cfg(test)]
mod tests {
    use super::super::field::{text_in, Placeholder};
    use super::*;
    use crate::code_page::Charset;

    fn notes(states: &[(&str, &str)], counts: [&str; 3], state: &str) -> Vec<String> {
        let record = |(state, case_type): &(&str, &str)| {
            text_in(
                RECORD,
                &[(rec::STATE, *state), (rec::CASE_TYPE, *case_type)],
            )
        };
        let records: Vec<u8> = states.iter().flat_map(record).collect();
        let fields = [
            (rct::STATE, "OH"),
            (rct::TANF, counts[0]),
            (rct::NON_TANF, counts[1]),
            (rct::TOTAL, counts[2]),
        ];
        let form = Form::new(Charset::Ebcdic, Placeholder::Dot, false);
        notes_on(&records, &text_in(RECORD, &fields), state, &form)
    }

    #[test]
    fn counts_and_states() {
        let records = [("OH", "A"), ("OH", "N"), ("KY", "N")];
        let right = ["000000001", "000000002", "000000003"];
        assert_eq!(notes(&records[..0], ["0", "000", "0"], "OH").len(), 0);
        let found = notes(&records, right, "OH");
        let other = "1 of 3 records have another state than OH, record 3 the first: 'KY'";
        assert_eq!(found, [other]);
        let found = notes(&records[..2], right, "OH");
        assert_eq!(
            found[0],
            "the RCT record states 2 as Non-TANF Cases Returned (15-23), and the file has 1: is it whole?"
        );
        assert_eq!(found.len(), 2);
        let found = notes(&records[2..], ["X", "000000001", "000000001"], "KY");
        assert!(found[0].starts_with("the RCT record states 'X' as TANF"));
        assert_eq!(
            found[1],
            "the RCT record is of state 'OH' (4-5), and --state is KY"
        );
    }
}
