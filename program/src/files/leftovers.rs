//! Temporary files and lock files that must not stay: they go when a signal (INT, TERM or HUP) ends the run.
//!
//! The signals are held back, and a thread waits for them. While files are put in place it waits with them, so that a run is
//! ended before its first rename or behind its last.

use std::fs;
use std::path::{Path, PathBuf};
use std::sync::{Mutex, MutexGuard};
use std::thread;

use crate::system::{end_by, hold_back, wait_for, HANG_UP, INTERRUPT, TERMINATE};

static LEFTOVERS: Mutex<Vec<PathBuf>> = Mutex::new(Vec::new());

fn list() -> MutexGuard<'static, Vec<PathBuf>> {
    LEFTOVERS
        .lock()
        .unwrap_or_else(|poisoned| poisoned.into_inner())
}

/// Begins to watch for signals. It is called before any other thread is started.
pub fn watch() {
    let set = hold_back(&[INTERRUPT, TERMINATE, HANG_UP]);
    let wait = move || {
        while let Some(number) = wait_for(&set) {
            let mut paths = list();
            for path in paths.drain(..) {
                let _ = fs::remove_file(path);
            }
            end_by(&set, number);
        }
    };
    let _ = thread::Builder::new().spawn(wait);
}

/// A file that is made by the function and goes with the run.
pub fn made<T, E>(path: &Path, make: impl FnOnce() -> Result<T, E>) -> Result<T, E> {
    let mut paths = list();
    let made = make()?;
    paths.push(path.to_path_buf());
    Ok(made)
}

/// A file that another run has removed, or that is another's.
pub fn forget(path: &Path) {
    list().retain(|other| other != path);
}

/// Removes such a file.
pub fn remove(path: &Path) {
    let mut paths = list();
    let _ = fs::remove_file(path);
    paths.retain(|other| other != path);
}

/// No signal ends the run while files are put in place.
pub struct Placing(MutexGuard<'static, Vec<PathBuf>>);

impl Placing {
    pub fn begin() -> Placing {
        Placing(list())
    }

    /// A temporary file that has become the file itself.
    pub fn is_placed(&mut self, path: &Path) {
        self.0.retain(|other| other != path);
    }
}
