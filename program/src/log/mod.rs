//! The log of the runs on a master: the file MASTER.log, a line of JSON for each run. It holds fingerprints and counts, never
//! an SSN.
//!
//! The line of a run is in place before its master is, and has the fingerprints of the master before and after. So a run was
//! carried out exactly when the master, or the next line, has the one that it should leave.

pub mod before;
pub mod history;
pub mod line;
pub mod record;
pub mod sha256;

mod sha256_x86;
mod take_backs;
pub mod time;
mod value;
