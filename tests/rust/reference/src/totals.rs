//! The totals of a batch: a call that isn't the papers', over the definitions of refusals 7 and 8.

use crate::batch::{amount, count, refusal_05, RECORD};

/// The two counts and two amounts that the details give, in the order of the control record (Chart
/// A-2), whatever the last record says. Err holds the refusal's number, 5.
pub fn totals(batch: &[u8]) -> Result<[u64; 4], u64> {
    if refusal_05(batch) {
        return Err(5);
    }
    let mut details: Vec<&[u8]> = batch.chunks_exact(RECORD).collect();
    details.pop();
    Ok([
        count(&details, b'A'),
        count(&details, b'N'),
        amount(&details, b'A'),
        amount(&details, b'N'),
    ])
}
