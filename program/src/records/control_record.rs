//! The control record of a batch that the program makes, and what the library says of a batch by itself.

use fantanolive::{apply, totals, Refusal, Totals, RECORD};

use super::columns::control;
use crate::code_page::argument;

/// A batch of details for a state: behind them the control record with the totals that the library adds up.
pub fn batch_of(state: &[u8], details: &[u8]) -> Result<(Vec<u8>, Totals), Refusal> {
    let mut batch = details.to_vec();
    let totals = add_control(state, &mut batch)?;
    match refusal_of(&batch) {
        None => Ok((batch, totals)),
        Some(refusal) => Err(refusal),
    }
}

/// Adds the control record to details. What the library says of the batch is to be seen yet.
pub fn add_control(state: &[u8], batch: &mut Vec<u8>) -> Result<Totals, Refusal> {
    let details = batch.len();
    batch.resize(details + RECORD, argument(b" ")[0]);
    let totals = totals(batch)?;
    let record = control_record(state, &totals).ok_or(Refusal::WrongAmount)?;
    batch[details..].copy_from_slice(&record);
    Ok(totals)
}

/// The control record of a state with these totals; none where one is wider than its field.
pub fn control_record(state: &[u8], totals: &Totals) -> Option<Vec<u8>> {
    let mut record = argument(&[b' '; RECORD]);
    control::STATE.set(&mut record, state);
    control::MARK.set(&mut record, &argument(b"CTL"));
    for (field, total) in fields_of(totals) {
        let width = field.last + 1 - field.first;
        let digits = format!("{total:0width$}");
        if digits.len() > width {
            return None;
        }
        field.set(&mut record, &argument(digits.as_bytes()));
    }
    Some(record)
}

/// The four totals, each with its field in the control record.
pub fn fields_of(totals: &Totals) -> [(super::columns::Field, u64); 4] {
    [
        (control::TANF_RECORDS, totals.tanf_count),
        (control::NON_TANF_RECORDS, totals.non_tanf_count),
        (control::TANF_AMOUNT, totals.tanf_amount),
        (control::NON_TANF_AMOUNT, totals.non_tanf_amount),
    ]
}

/// The refusal of a batch by itself (5, 6, 20, 21, 7, 8). `apply` is asked with nothing else lent: a batch that passes these is
/// refused by 9, 10 or 11.
pub fn refusal_of(batch: &[u8]) -> Option<Refusal> {
    let space = [
        Refusal::NoRoom,
        Refusal::ShortVerdicts,
        Refusal::ShortOutput,
    ];
    let answer = apply(&mut [], 0, batch, &[], 2000, &mut [], &mut []);
    answer.err().filter(|refusal| !space.contains(refusal))
}

#[cfg(test)]
mod tests {
    use super::*;

    #[test]
    fn a_batch_without_details() {
        let (batch, totals) = batch_of(&argument(b"OH"), &[]).expect("it is one");
        let zeros = "0".repeat(40);
        let text = format!("OHCTL{zeros}{}", " ".repeat(200));
        assert_eq!(batch, argument(text.as_bytes()));
        assert_eq!((totals.tanf_count, totals.non_tanf_amount), (0, 0));
        let other = batch_of(&argument(b"XX"), &[]);
        assert_eq!(other, Err(Refusal::ControlState));
        assert_eq!(batch_of(&[], &[0]), Err(Refusal::WrongBatch));
    }
}
