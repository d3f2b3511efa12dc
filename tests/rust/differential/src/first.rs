//! What becomes of cases of the first calls, told from what the reference leaves.

pub mod contacts;
pub mod control;
pub mod details;
pub mod exclusions;
pub mod names;
pub mod posting;

use agreement::case::Case;
use reference::row::ROW;

/// The rows of a case's master.
pub fn rows(case: &Case) -> impl Iterator<Item = &[u8]> {
    let count = case.count("rows") as usize;
    case.bytes("master").chunks_exact(ROW).take(count)
}

/// The details of a case's batch with their verdicts.
pub fn judged<'a>(case: &'a Case, after: &Case) -> Vec<(&'a [u8], u64)> {
    let records: Vec<&[u8]> = case.bytes("batch").chunks_exact(245).collect();
    let details = &records[..records.len() - 1];
    let verdicts = after.numbers("verdicts");
    details.iter().copied().zip(verdicts).collect()
}
