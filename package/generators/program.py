"""program/src/records/columns.rs: the columns of the records that the program shows."""
from . import table

PATH = "program/src/records/columns.rs"
HEAD = """//! The columns of each kind of record, in the words of the charts; those of a row in the words of document 01 where the charts
//! have none. Columns count from 1.
//!
//! Written by bin/generate-layouts from package/layouts.json; not to be edited.

/// How the bytes of a field are shown.
#[derive(Clone, Copy, Debug, PartialEq, Eq)]
pub enum Kind {
    /// What someone typed: a number of nine digits or more in it is masked as an SSN is.
    Text,
    /// A count or a total, in digits.
    Number,
    /// Nine digits of which the first five are masked.
    Ssn,
    /// Digits with two decimal places assumed, whose last may carry a positive sign.
    Amount,
    /// A byte whose bits are the eight exclusions.
    Set,
    Filler,
}

#[derive(Clone, Copy, Debug, PartialEq, Eq)]
pub struct Field {
    pub name: &'static str,
    pub first: usize,
    pub last: usize,
    pub kind: Kind,
}

/// The fields of a record, in order and without gaps.
pub type Layout = &'static [Field];

const fn field(name: &'static str, first: usize, last: usize, kind: Kind) -> Field {
    Field {
        name,
        first,
        last,
        kind,
    }
}
"""
LOCAL_CODE = """
/// A code of a list of local codes.
pub mod local_code {
    use super::*;

    pub const FIELDS: Layout = &[field("Local Code", 1, 3, Kind::Text)];
}
"""

# Control records: their numbers are counts and totals. Those of the other records stand there as someone typed them.
TOTALS = ("control", "reject_control", "total", "rct")

# Case pages are for people: the program writes them and reads none.
NOT_READ = ("page_line", "page_heading", "page_foot")


def kind(layout, field):
    if field["kind"] == "number":
        return "Number" if layout["name"] in TOTALS else "Text"
    return "Text" if field["kind"] == "date" else field["kind"].capitalize()


def constant(layout, field):
    title, first, last = field["title"], field["first"], field["last"]
    return f'    pub const {field["name"].upper()}: Field = field("{title}", {first}, {last}, Kind::{kind(layout, field)});\n'


def module(layout):
    text = f"\n/// {table.what(layout)}.\n#[rustfmt::skip]\npub mod {layout['name']} {{\n    use super::*;\n\n"
    text += "".join(constant(layout, field) for field in layout["fields"])
    names = "".join(f"        {field['name'].upper()},\n" for field in layout["fields"])
    return f"{text}    pub const FIELDS: Layout = &[\n{names}    ];\n}}\n"


def files():
    shown = [layout for layout in table.layouts() if layout["name"] not in NOT_READ]
    return {PATH: HEAD + "".join(module(layout) for layout in shown) + LOCAL_CODE}
