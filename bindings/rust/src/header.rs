//! Sizes in bytes, limits and refusals, as `fantanolive.h` has them.
//!
//! Written by bin/generate-layouts from fantanolive.h; not to be edited.

/// Bytes of a row of the master.
pub const ROW: usize = 200;
/// Bytes of a record of a batch, a reject file and a reconciliation file.
pub const RECORD: usize = 245;
/// Bytes of the output of `records_to`: four records.
pub const RECORDS: usize = 980;
/// Bytes of a contact record, in a file and in a table.
pub const CONTACT: usize = 220;
/// Bytes of a record of a collection file.
pub const LINE: usize = 240;
/// Bytes of a key: columns 1–12 of a row.
pub const KEY: usize = 12;
/// Bytes of a state.
pub const STATE: usize = 2;
/// Bytes of a date, CCYYMMDD.
pub const DATE: usize = 8;
/// Bytes of a local code.
pub const LOCAL_CODE: usize = 3;
/// Bytes of a line of a case page.
pub const PAGE_LINE: usize = 132;
/// Lines for cases on a full page, between its heading and its foot.
pub const PAGE_CASES: usize = 58;
/// The most rows that a master may have.
pub const MAX_ROWS: usize = 16_777_215;
/// The most records that a batch or a collection file may have, the last record included.
pub const MAX_RECORDS: usize = 16_777_216;
/// The most records that a contact file may have.
pub const MAX_CONTACTS: usize = 16_777_215;
/// The place that [`crate::find_many`] tells for a key without a row.
pub const NO_PLACE: u32 = 4_294_967_295;
/// The errors, codes 1 to 18. A detail whose verdict has one is rejected.
pub const ERRORS: u64 = 0x7FFFE;
/// The warnings, codes 51 and 52. A detail whose verdict has one is accepted.
pub const WARNINGS: u64 = 3 << 51;

/// Bytes that the journal of a batch of so many details always has room in; fewer are refused (25).
pub const fn journal_size(details: usize) -> usize {
    12 + 205 * details
}

/// Pages of so many live rows.
const fn pages(cases: usize) -> usize {
    cases.div_ceil(PAGE_CASES)
}

/// Bytes of the pages of so many live rows.
pub const fn pages_size(cases: usize) -> usize {
    PAGE_LINE * (cases + 2 * pages(cases))
}

/// Why a call was refused. The value is the refusal's number.
#[derive(Clone, Copy, Debug, PartialEq, Eq, Hash)]
#[repr(u64)]
pub enum Refusal {
    /// Year outside 1900-9999.
    WrongYear = 1,
    /// List not made of three-digit codes, three bytes each, strictly rising.
    WrongLocals = 2,
    /// Master length no multiple of 200, or row count above length / 200 or 16,777,215.
    WrongMaster = 3,
    /// A row that is not sound, or rows not in strictly rising order of key.
    UnsoundRow = 4,
    /// Batch empty, no multiple of 245, or over 16,777,216 records.
    WrongBatch = 5,
    /// CTL is missing in columns 3-5 of the last record.
    NoCtl = 6,
    /// A count of the control record differs from the details'.
    WrongCount = 7,
    /// An amount of the control record differs from the details'.
    WrongAmount = 8,
    /// Rows plus A records whose key has no row exceed length / 200 or 16,777,215.
    NoRoom = 9,
    /// Verdict list shorter than the details.
    ShortVerdicts = 10,
    /// Reject buffer below 245 x (details + 1), reconciliation buffer 245 x (records + 1).
    ShortOutput = 11,
    /// State not in the table of 54.
    WrongState = 12,
    /// Not a Gregorian date CCYYMMDD of 1900-9999.
    WrongDate = 13,
    /// Key not of twelve bytes, or not sound.
    UnsoundKey = 14,
    /// No row with this key.
    NoSuchRow = 15,
    /// A byte without a counterpart.
    NoCounterpart = 16,
    /// Output shorter than the input.
    ShortFile = 17,
    /// Contact file or table of a wrong length or count, table faulty or out of order.
    WrongContacts = 18,
    /// No space in the table, a list or an output of codes too short.
    ShortContacts = 19,
    /// The control record's state is not in the table of 54.
    ControlState = 20,
    /// A total of the control record is not digits, or its filler not spaces.
    ControlForm = 21,
    /// Collection file empty, no multiple of 240, or over 16,777,216 records.
    WrongFile = 22,
    /// Its last record not TOTAL with the numbers of adjustments and collections.
    WrongTotal = 23,
    /// Line list shorter than the lines.
    ShortLines = 24,
    /// Journal buffer below 12 + 205 x details.
    ShortJournal = 25,
    /// No journal, or one that does not fit the master, or what it would leave is not sound.
    WrongJournal = 26,
    /// List of keys not made of sound keys, twelve bytes each, strictly rising.
    WrongKeys = 27,
    /// Answer list shorter than the keys.
    ShortPlaces = 28,
    /// No list of C, L, R and M records leads from the row to the wanted row.
    NoRecords = 29,
    /// Output of records below 980 bytes.
    ShortRecords = 30,
    /// Buffer too short for the pages.
    ShortPages = 31,
    /// Two states, over 16,777,215 details together, or an amount above eleven digits.
    CannotMerge = 32,
    /// Output shorter than the merged batch.
    ShortBatch = 33,
    /// A number that this version of the crate doesn't know; a library of another version may answer it.
    Unknown = 0,
}

impl Refusal {
    /// Every refusal but [`Refusal::Unknown`], in rising order of number.
    pub const ALL: [Refusal; 33] = [
        Refusal::WrongYear,
        Refusal::WrongLocals,
        Refusal::WrongMaster,
        Refusal::UnsoundRow,
        Refusal::WrongBatch,
        Refusal::NoCtl,
        Refusal::WrongCount,
        Refusal::WrongAmount,
        Refusal::NoRoom,
        Refusal::ShortVerdicts,
        Refusal::ShortOutput,
        Refusal::WrongState,
        Refusal::WrongDate,
        Refusal::UnsoundKey,
        Refusal::NoSuchRow,
        Refusal::NoCounterpart,
        Refusal::ShortFile,
        Refusal::WrongContacts,
        Refusal::ShortContacts,
        Refusal::ControlState,
        Refusal::ControlForm,
        Refusal::WrongFile,
        Refusal::WrongTotal,
        Refusal::ShortLines,
        Refusal::ShortJournal,
        Refusal::WrongJournal,
        Refusal::WrongKeys,
        Refusal::ShortPlaces,
        Refusal::NoRecords,
        Refusal::ShortRecords,
        Refusal::ShortPages,
        Refusal::CannotMerge,
        Refusal::ShortBatch,
    ];
}
