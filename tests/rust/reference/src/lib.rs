//! Document 01 and the items of document 02 that have come so far written out rule by rule, in their
//! order and words; simple before fast.
//! Nothing here panics: every length is looked at by a refusal before it is relied on.

pub mod batch;
pub mod code_page;
pub mod contacts;
pub mod errors;
pub mod journal;
pub mod limits;
pub mod lookup;
pub mod machine;
pub mod many;
pub mod merge;
pub mod pages;
pub mod posting;
pub mod records_to;
pub mod row;
pub mod text;
pub mod totals;

pub use batch::{apply, Counts};
pub use code_page::{to_ascii, to_ebcdic};
pub use journal::{apply_journaled, take_back};
pub use lookup::{find, reconcile};
pub use many::find_many;
pub use merge::merge;
pub use pages::pages;
pub use posting::{add_cents, post};
pub use records_to::records_to;
pub use totals::totals;

#[cfg(test)]
mod tests;
