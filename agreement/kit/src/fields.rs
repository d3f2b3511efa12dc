//! The names of columns: which field of which record a byte of a buffer is.

use crate::calls::Content;
use crate::text::record_width;

#[path = "../../../program/src/records/columns.rs"]
#[allow(dead_code)]
mod columns;

use columns::{
    contact, control, detail, line, local_code, rct, rec, reject, reject_control, row, total, Kind,
};
pub use columns::{Field, Layout};

const fn text(name: &'static str, first: usize, last: usize) -> Field {
    Field {
        name,
        first,
        last,
        kind: Kind::Text,
    }
}

const KEY: Layout = &[
    text("State", 1, 2),
    text("SSN", 3, 11),
    text("Case Type", 12, 12),
];
const HEADING: Layout = &[
    text("CASES", 1, 6),
    text("Page Number", 7, 12),
    text("Spaces", 13, 132),
];
const FOOT: Layout = &[
    text("TOTAL", 1, 6),
    text("Lines of the Page", 7, 10),
    text("Spaces", 11, 132),
];
const CASE_LINE: Layout = &[
    text("Key", 1, 13),
    text("Local Code", 14, 17),
    text("Last Name", 18, 38),
    text("First Name", 39, 54),
    text("Arrearage", 55, 63),
    text("Exclusions Set", 64, 64),
    text("Spaces", 65, 132),
];

fn is(record: &[u8], first: usize, word: &str) -> bool {
    let word = generator::text::text(word);
    record.get(first - 1..first - 1 + word.len()) == Some(&word[..])
}

/// The fields of a record among those of its buffer; `last` says whether it is the last one.
pub fn layout(content: Content, record: &[u8], last: bool) -> Layout {
    match content {
        Content::Rows => row::FIELDS,
        Content::Batch if last => control::FIELDS,
        Content::Batch | Content::Records => detail::FIELDS,
        Content::Rejects => {
            let digits = |bytes: &[u8]| bytes.iter().all(|byte| (0xF0..=0xF9).contains(byte));
            match is(record, 3, "CTL") && record.get(5..59).is_some_and(digits) {
                true => reject_control::FIELDS,
                false => reject::FIELDS,
            }
        }
        Content::Lines if last => total::FIELDS,
        Content::Lines => line::FIELDS,
        Content::Contacts => contact::FIELDS,
        Content::Reconciliation if is(record, 1, "RCT") => rct::FIELDS,
        Content::Reconciliation => rec::FIELDS,
        Content::Pages if is(record, 1, "CASES") => HEADING,
        Content::Pages if is(record, 1, "TOTAL") => FOOT,
        Content::Pages => CASE_LINE,
        Content::Keys => KEY,
        Content::Locals => local_code::FIELDS,
        _ => &[],
    }
}

/// Where a byte of a buffer is.
pub struct Spot {
    /// The record's number, from 1.
    pub record: usize,
    /// The column, from 1.
    pub column: usize,
    pub field: Option<&'static Field>,
}

pub fn spot(content: Content, bytes: &[u8], offset: usize) -> Spot {
    let width = record_width(content);
    let start = offset / width * width;
    let end = (start + width).min(bytes.len());
    let record = &bytes[start..end];
    let fields = layout(content, record, end + width > bytes.len());
    let column = offset % width + 1;
    let holds = |field: &&Field| (field.first..=field.last).contains(&column);
    Spot {
        record: offset / width + 1,
        column,
        field: fields.iter().find(holds),
    }
}

/// Which part of a journal a byte is.
pub fn journal_part(journal: &[u8], offset: usize) -> String {
    let mut at = 0;
    let number_end = |from: usize| {
        let run = journal[from..].iter().take_while(|&&byte| byte >= 0x80);
        from + run.count() + 1
    };
    for part in ["count before", "count after"] {
        at = number_end(at.min(journal.len()));
        if offset < at {
            return part.to_string();
        }
    }
    while at < journal.len() {
        at = number_end(at);
        if offset < at {
            return "place".to_string();
        }
        if offset == at {
            return "mark".to_string();
        }
        let is_old = journal.get(at) == Some(&1);
        at += 1;
        if is_old {
            if offset < at + 200 {
                return "old row".to_string();
            }
            at += 200;
        }
    }
    "bytes behind the journal".to_string()
}
