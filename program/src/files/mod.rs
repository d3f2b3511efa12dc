//! Files: read whole, locked, made and replaced.

pub mod access;
pub mod leftovers;
pub mod length;
pub mod lines;
pub mod lock;
pub mod outputs;
pub mod protect;
pub mod read;
pub mod replace;
pub mod target;
