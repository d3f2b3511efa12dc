//! The Fantanolive library in Rust: a state's copy of the federal offset case master.
//!
//! Two forms of each call. The functions here take slices that the caller lends, and write into them; those of [`owned`] take
//! whole files and give vectors. Both answer a `Result`: a refusal is a [`Refusal`], with its words, and then nothing was
//! written. [`layouts`] has rows and records as structs, and [`raw`] the calls with the numbers that C has. Nothing panics.
//!
//! Files are in EBCDIC; [`to_ebcdic`] and [`to_ascii`] convert, and [`layouts`] reads and writes texts. What the calls do, and
//! every refusal, is said at length in `fantanolive.h` and in the manual.
//!
//! ```
//! use fantanolive::{find, owned, Refusal};
//!
//! let key = owned::to_ebcdic(b"OH123456789N").expect("letters and digits");
//! assert_eq!(find(&[], 0, &key), Err(Refusal::NoSuchRow));
//! println!("{}", Refusal::NoSuchRow.text().mend);
//! ```
//!
//! The build script links the archive `libfantanolive.a`. It looks for it in the folder that `FANTANOLIVE_LIB_DIR` names (and
//! for the headers in that of `FANTANOLIVE_INCLUDE_DIR`), in the repository that the crate is part of, and then asks
//! `pkg-config`.
#![warn(missing_docs)]
#![deny(unsafe_code)]

mod calls;
mod code_page;
mod fields;
#[rustfmt::skip]
mod header;
#[rustfmt::skip]
pub mod layouts;
pub mod owned;
#[allow(unsafe_code)]
#[rustfmt::skip]
pub mod raw;
mod refusal;
mod texts;
mod verdict;

pub use calls::{
    add_cents, apply, apply_journaled, contacts_codes, contacts_update, find, find_many, merge,
    pages, post, reconcile, records_to, take_back, to_ascii, to_ebcdic, totals, ContactCounts,
    Counts, Totals,
};
pub use fields::{Field, Kind, Record, Unfit};
pub use header::{
    journal_size, pages_size, Refusal, CONTACT, DATE, ERRORS, KEY, LINE, LOCAL_CODE, MAX_CONTACTS,
    MAX_RECORDS, MAX_ROWS, NO_PLACE, PAGE_CASES, PAGE_LINE, RECORD, RECORDS, ROW, STATE, WARNINGS,
};
pub use refusal::NotConverted;
pub use texts::{code_text, library_version, refusal_text, Text, VERSION};
pub use verdict::{codes, has_code};
