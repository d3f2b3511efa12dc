//! The kinds of files: what their records are, and how many there may be.

use fantanolive::{
    journal_size, CONTACT, LINE, LOCAL_CODE, MAX_CONTACTS, MAX_RECORDS, MAX_ROWS, RECORD, ROW,
};

use super::columns::{
    contact, control, detail, line, local_code, rct, rec, reject, reject_control, row, total,
    Field, Layout,
};
use super::field::Form;

/// The last record of a file, where that is one of its own: its fields, and the word that it has in one of them. One without
/// the word is shown as the other records are, so that no SSN is taken for a count.
pub struct Last {
    pub fields: Layout,
    pub mark: Field,
    pub word: &'static str,
}

pub struct FileKind {
    /// Its name, which `show` takes.
    pub name: &'static str,
    /// What one of its records is called.
    pub record: &'static str,
    pub width: usize,
    /// The most records that the library takes.
    pub most: usize,
    pub fields: Layout,
    /// The fields that stand first in a table.
    pub first: Layout,
    pub last: Option<Last>,
}

impl FileKind {
    /// Whether --ascii and --lines concern it: masters, tables and journals are as the library writes them.
    pub fn takes_ascii(&self) -> bool {
        let is_table = self.name == TABLE.name && self.most == TABLE.most;
        !is_table && self.name != MASTER.name && self.name != JOURNAL.name
    }

    /// The last record of this kind, where a record has its word.
    pub fn marked(&self, record: &[u8], form: &Form) -> Option<&Last> {
        let last = self.last.as_ref()?;
        (form.field(&last.mark, record) == last.word).then_some(last)
    }
}

pub const MASTER: FileKind = FileKind {
    name: "master",
    record: "row",
    width: ROW,
    most: MAX_ROWS,
    fields: row::FIELDS,
    first: &[
        row::STATE,
        row::SSN,
        row::CASE_TYPE,
        row::LAST_NAME,
        row::FIRST_NAME,
        row::ARREARAGE,
        row::STATUS,
        row::CENTS,
    ],
    last: None,
};

/// One row by itself.
pub const ONE_ROW: FileKind = FileKind { most: 1, ..MASTER };

pub const BATCH: FileKind = FileKind {
    name: "batch",
    record: "record",
    width: RECORD,
    most: MAX_RECORDS,
    fields: detail::FIELDS,
    first: &[
        detail::STATE,
        detail::SSN,
        detail::CASE_TYPE,
        detail::TRANSACTION_TYPE,
        detail::LAST_NAME,
        detail::FIRST_NAME,
        detail::ARREARAGE,
    ],
    last: Some(Last {
        fields: control::FIELDS,
        mark: control::MARK,
        word: "CTL",
    }),
};

pub const REJECTS: FileKind = FileKind {
    name: "rejects",
    record: "record",
    width: RECORD,
    most: MAX_RECORDS,
    fields: reject::FIELDS,
    first: &[
        detail::STATE,
        detail::SSN,
        detail::CASE_TYPE,
        detail::TRANSACTION_TYPE,
        detail::LAST_NAME,
        reject::ERROR_CODES,
        reject::STORED_NAME,
    ],
    last: Some(Last {
        fields: reject_control::FIELDS,
        mark: reject_control::MARK,
        word: "CTL",
    }),
};

pub const RECONCILIATION: FileKind = FileKind {
    name: "reconciliation",
    record: "record",
    width: RECORD,
    most: MAX_RECORDS,
    fields: rec::FIELDS,
    first: &[
        rec::STATE,
        rec::SSN,
        rec::CASE_TYPE,
        rec::LAST_NAME,
        rec::FIRST_NAME,
        rec::ARREARAGE,
    ],
    last: Some(Last {
        fields: rct::FIELDS,
        mark: rct::MARK,
        word: "RCT",
    }),
};

pub const CONTACTS: FileKind = FileKind {
    name: "contacts",
    record: "record",
    width: CONTACT,
    most: MAX_CONTACTS,
    fields: contact::FIELDS,
    first: &[
        contact::STATE,
        contact::LOCAL_CODE,
        contact::AGENCY_NAME,
        contact::TELEPHONE_1,
    ],
    last: None,
};

/// A table of contact records: 54 states with a thousand codes each, and each may be there once.
pub const TABLE: FileKind = FileKind {
    most: 54_000,
    ..CONTACTS
};

pub const COLLECTIONS: FileKind = FileKind {
    name: "collections",
    record: "line",
    width: LINE,
    most: MAX_RECORDS,
    fields: line::FIELDS,
    first: &[
        line::STATE,
        line::SSN,
        line::CASE_TYPE,
        line::LAST_NAME,
        line::COLLECTION,
        line::ADJUSTMENT,
    ],
    last: Some(Last {
        fields: total::FIELDS,
        mark: total::MARK,
        word: "TOTAL",
    }),
};

/// Three digits make a thousand codes, and each may be there once.
pub const LOCALS: FileKind = FileKind {
    name: "locals",
    record: "code",
    width: LOCAL_CODE,
    most: 1000,
    fields: local_code::FIELDS,
    first: &[],
    last: None,
};

/// The journal of a batch, which has no records; it is no longer than that of the largest batch.
pub const JOURNAL: FileKind = FileKind {
    name: "journal",
    record: "byte",
    width: 1,
    most: journal_size(MAX_RECORDS - 1),
    fields: &[],
    first: &[],
    last: None,
};

pub const KINDS: [&FileKind; 7] = [
    &MASTER,
    &BATCH,
    &REJECTS,
    &RECONCILIATION,
    &CONTACTS,
    &COLLECTIONS,
    &LOCALS,
];
