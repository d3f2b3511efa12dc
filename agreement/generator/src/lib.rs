//! Random cases for the calls; the same seed gives the same case.

pub mod bulk;
pub mod cases;
pub mod contacts;
pub mod crowd;
pub mod files;
pub mod journal;
pub mod many;
pub mod merge;
pub mod pages;
pub mod posting;
pub mod records;
pub mod records_to;
pub mod rng;
pub mod rows;
pub mod several;
pub mod text;
pub mod wild;
pub mod world;

pub use cases::{apply_only, case, ApplyCase, Case, FindCase, ReconcileCase};
pub use contacts::{CodesCase, UpdateCase};
pub use files::{ConvertCase, Direction};
pub use posting::{CentsCase, PostCase};
