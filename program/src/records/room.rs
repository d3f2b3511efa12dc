//! How many rows a master may still get.

use fantanolive::{MAX_ROWS, RECORD};

use super::columns::detail;
use crate::code_page::argument;
use crate::failure::{counted, grouped};

/// The rows that are free, where nine in ten are taken or more.
pub fn nearly_full(rows: u64) -> Option<u64> {
    let most = MAX_ROWS as u64;
    (rows * 10 >= most * 9).then(|| most.saturating_sub(rows))
}

/// How many details of a batch are of type A.
pub fn adds_in(details: &[u8]) -> u64 {
    let add = argument(b"A");
    let records = details.chunks_exact(RECORD);
    records
        .filter(|record| detail::TRANSACTION_TYPE.of(record) == add)
        .count() as u64
}

/// What is known of a master for whose new rows there is no room.
pub fn note_of(name: &str, rows: u64, adds: u64) -> String {
    let most = MAX_ROWS as u64;
    let free = most.saturating_sub(rows);
    format!(
        "{name}: {} of {} are taken, {} free; the batch has {} of type A",
        grouped(rows),
        counted(most, "row"),
        grouped(free),
        counted(adds, "detail"),
    )
}

#[cfg(test)]
mod tests {
    use super::*;
    use crate::records::made_up_case::record_of;

    #[test]
    fn rows_at_nine_in_ten() {
        assert_eq!(nearly_full(0), None);
        assert_eq!(nearly_full(15_099_493), None);
        assert_eq!(nearly_full(15_099_494), Some(1_677_721));
        assert_eq!(nearly_full(16_777_215), Some(0));
    }

    #[test]
    fn what_is_free_is_told() {
        let details = ["A", "M", "A"].map(|kind| record_of(kind, &[])).concat();
        assert_eq!(adds_in(&details), 2);
        let note =
            "m: 16,777,214 of 16,777,215 rows are taken, 1 free; the batch has 2 details of type A";
        assert_eq!(note_of("m", 16_777_214, 2), note);
    }
}
