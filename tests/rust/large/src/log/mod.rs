//! The program's own fingerprints, to see how long they take.
#![allow(dead_code)]

#[path = "../../../../../program/src/log/sha256.rs"]
pub mod sha256;
#[path = "../../../../../program/src/log/sha256_x86.rs"]
pub mod sha256_x86;
