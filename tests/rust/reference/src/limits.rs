//! The limit that rows, details, contact records and lines have in common.

/// "Rows and details may each number up to 16,777,215." (item 14 of document 02)
pub const MOST: usize = 16_777_215;
/// Details or lines, and the record behind them.
pub const MOST_RECORDS: usize = MOST + 1;
