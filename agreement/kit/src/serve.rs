//! The process that holds a shared library: it opens it, says which calls it has, and answers frames until its input ends.

use std::ffi::OsString;

use crate::calls::{CALLS, OWN};
use crate::frame;
use crate::lent::Memory;
use crate::limits::limits;
use crate::protocol::names;
use crate::system::{self, Library};

/// The variables that say that a process is to serve, and what.
pub const LIBRARY: &str = "FANTANOLIVE_AGREE_LIBRARY";
pub const PREFIX: &str = "FANTANOLIVE_AGREE_PREFIX";

/// What this process is to serve, if it is one that serves.
pub fn asked() -> Option<(OsString, String)> {
    let library = std::env::var_os(LIBRARY)?;
    let prefix = std::env::var(PREFIX).unwrap_or_default();
    Some((library, prefix))
}

fn say(output: i32, bytes: &[u8]) -> bool {
    system::write_until(output, bytes, system::no_deadline()).is_ok()
}

/// Reads so many bytes; none at the end of the input.
fn exactly(length: usize) -> Option<Vec<u8>> {
    let mut bytes = vec![0; length];
    let mut have = 0;
    while have < length {
        match system::read_until(0, &mut bytes[have..], system::no_deadline()) {
            Ok(0) | Err(_) => return None,
            Ok(count) => have += count,
        }
    }
    Some(bytes)
}

/// Serves until the input ends.
pub fn serve(library: &OsString, prefix: &str) {
    let output = system::take_standard_output();
    let library = match Library::open(&library.to_string_lossy()) {
        Ok(library) => library,
        Err(error) => {
            say(output, format!("error {error}\n").as_bytes());
            return;
        }
    };
    let named = |call: &crate::calls::Call| library.function(&format!("{prefix}{}", call.name));
    let functions: Vec<Option<*const ()>> = CALLS.iter().map(named).collect();
    let has = |call: &usize| functions[*call].is_some();
    let calls: Vec<usize> = (0..OWN).filter(has).collect();
    let line = format!("calls {}\n", names(&calls).join(" "));
    if !say(output, line.as_bytes()) {
        return;
    }
    let mut memory = Memory::default();
    while let Some(length) = exactly(frame::LENGTH) {
        let length = length.try_into().map(u64::from_le_bytes).unwrap_or(0);
        let Some(bytes) = exactly(length as usize) else {
            return;
        };
        if let Some(place) = frame::limit_in(&bytes) {
            let limit = &limits()[place];
            let Some(function) = functions[limit.call] else {
                return;
            };
            // SAFETY: as below.
            let outcome = unsafe { crate::limits::run(function, limit) };
            if !say(output, &frame::of_limit_outcome(&outcome)) {
                return;
            }
            continue;
        }
        let Some((case, side)) = frame::case_in(&bytes) else {
            return;
        };
        let Some(function) = functions[case.call] else {
            return;
        };
        // SAFETY: a function of this name, taken to have the interface of the header.
        let ran = unsafe { memory.run(function, &case, side) };
        if !say(output, &frame::of_outcome(ran)) {
            return;
        }
    }
}
