//! A lock that keeps runs on one file apart.
//!
//! It is a lock of the system on a file beside the one that is replaced, since a lock on that file itself would stay with the
//! old one when it is replaced. A run that is killed may leave the lock file, but never its lock.

use std::fs::{self, File, OpenOptions, TryLockError};
use std::io;
use std::os::unix::fs::{MetadataExt, OpenOptionsExt};
use std::path::{Path, PathBuf};
use std::thread;
use std::time::{Duration, Instant};

use crate::failure::{words, Failure};
use crate::files::leftovers;
use crate::files::target::Target;

/// Flags of Linux: make the file where it is missing; follow no link; don't wait for another end of a pipe.
const CREATE: i32 = 0o100;
const NO_LINK: i32 = 0o400_000;
const NO_WAIT: i32 = 0o4000;

/// How often a lock file may go away before it is locked.
const TRIES: usize = 1000;

/// How long a run that waits sleeps between two tries.
const PAUSE: Duration = Duration::from_millis(50);

/// The lock on a target, held until it is dropped.
pub struct Lock {
    path: PathBuf,
    _file: File,
}

impl Lock {
    /// Takes the lock, or says that another run has it when it has had it all the time given.
    pub fn take(target: &Target, wait: Duration) -> Result<Lock, Failure> {
        let end = Instant::now().checked_add(wait);
        loop {
            if let Some(lock) = Lock::try_take(target)? {
                return Ok(lock);
            }
            if end.is_some_and(|end| Instant::now() >= end) {
                return Err(busy(target));
            }
            thread::sleep(PAUSE);
        }
    }

    /// Takes the lock; none where another run has it.
    fn try_take(target: &Target) -> Result<Option<Lock>, Failure> {
        let path = target.lock();
        let failed = |error: io::Error| not_locked(target, &path, &error);
        for _ in 0..TRIES {
            let file = match leftovers::made(&path, || locked(target, &path)) {
                Ok(file) => file,
                Err(TryLockError::WouldBlock) => return Ok(None),
                Err(TryLockError::Error(error)) => return Err(failed(error)),
            };
            // Another run may have removed the file, its lock with it, before this one had the lock.
            if is_still(&file, &path).map_err(failed)? {
                return Ok(Some(Lock { path, _file: file }));
            }
            leftovers::forget(&path);
        }
        Ok(None)
    }
}

/// The lock goes with its file: removed while it is held, so that no other run has locked it.
impl Drop for Lock {
    fn drop(&mut self) {
        leftovers::remove(&self.path);
    }
}

/// The lock file, locked.
fn locked(target: &Target, path: &Path) -> Result<File, TryLockError> {
    let file = open(target, path).and_then(own);
    let file = file.map_err(TryLockError::Error)?;
    file.try_lock()?;
    Ok(file)
}

/// Opens the lock file, or makes it: the owner's alone, and the owner is that of the file, so that what a killed run of another
/// user left doesn't stop the owner.
fn open(target: &Target, path: &Path) -> io::Result<File> {
    let is_new = !path.exists();
    let mut options = OpenOptions::new();
    let file = options
        .read(true)
        .mode(0o600)
        .custom_flags(CREATE | NO_LINK | NO_WAIT)
        .open(path)?;
    if let Some(access) = target.access().filter(|_| is_new) {
        access.share_owner(&file);
    }
    Ok(file)
}

/// A lock file of this program is a regular file and empty; any other is not to be locked, nor removed at the end.
fn own(file: File) -> io::Result<File> {
    let about = file.metadata()?;
    if about.is_file() && about.len() == 0 {
        return Ok(file);
    }
    let what = "it is none of this program's; move it away";
    Err(io::Error::other(what))
}

fn is_still(file: &File, path: &Path) -> io::Result<bool> {
    let own = file.metadata()?;
    match fs::metadata(path) {
        Ok(named) => Ok(named.dev() == own.dev() && named.ino() == own.ino()),
        Err(error) if error.kind() == io::ErrorKind::NotFound => Ok(false),
        Err(error) => Err(error),
    }
}

fn not_locked(target: &Target, path: &Path, error: &io::Error) -> Failure {
    use io::ErrorKind::{PermissionDenied, ReadOnlyFilesystem};
    let is_closed = matches!(error.kind(), PermissionDenied | ReadOnlyFilesystem);
    let reason = if is_closed && !path.exists() {
        format!("its folder {} can't be written", target.folder.display())
    } else {
        format!("its lock file {} can't be used", path.display())
    };
    let what = format!("can't be replaced: {reason}: {}", words(error));
    Failure::file(&target.given, what)
}

fn busy(target: &Target) -> Failure {
    let what = "another run is at work on it; try again when that is over, or with --wait SECONDS";
    Failure::busy(&target.given, what)
}
