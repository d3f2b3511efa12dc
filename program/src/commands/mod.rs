//! The commands.

pub mod add_cents;
pub mod agree;
pub mod apply;
pub mod build;
pub mod codes;
pub mod compare;
pub mod contacts;
pub mod control;
pub mod convert;
pub mod edit;
pub mod explain;
pub mod export;
pub mod find;
pub mod log;
pub mod merge;
pub mod pages;
pub mod post;
pub mod reconcile;
pub mod records;
pub mod show;
pub mod split;
pub mod take_back;

mod changes;
mod keys;
mod list;
mod master;
mod output;
mod report_files;
