//! A file that a run replaces: where it is, and that it is none of the inputs.

use std::collections::HashMap;
use std::fs;
use std::io;
use std::os::unix::ffi::OsStrExt;
use std::os::unix::fs::MetadataExt;
use std::path::{Path, PathBuf};

use crate::failure::{words, Failure};
use crate::files::access::Access;

/// How many symbolic links are followed, as the system does.
const MOST_LINKS: usize = 40;

pub struct Target {
    /// As it was given.
    pub given: PathBuf,
    /// The file itself: links are followed, so that a link stays a link.
    pub path: PathBuf,
    pub folder: PathBuf,
    /// Whether a log is kept beside it.
    pub is_logged: bool,
}

/// The file that a path leads to, there or not.
fn resolved(path: &Path) -> io::Result<PathBuf> {
    let mut path = path.to_path_buf();
    for _ in 0..MOST_LINKS {
        match fs::read_link(&path) {
            Ok(to) => path = folder_of(&path).join(to),
            Err(error) if error.kind() == io::ErrorKind::NotFound => return Ok(path),
            Err(error) if error.kind() == io::ErrorKind::InvalidInput => return Ok(path),
            Err(error) => return Err(error),
        }
    }
    Err(io::Error::other("too many symbolic links"))
}

fn folder_of(path: &Path) -> PathBuf {
    match path.parent() {
        Some(folder) if folder != Path::new("") => folder.to_path_buf(),
        _ => PathBuf::from("."),
    }
}

/// Whether a path can only be that of a folder.
fn names_folder(path: &Path) -> bool {
    let bytes = path.as_os_str().as_bytes();
    bytes.ends_with(b"/") || bytes.ends_with(b"/.")
}

/// Whether standard output or standard error goes to a file.
fn is_printed_to(path: &Path) -> bool {
    let streams = ["/dev/stdout", "/dev/stderr"];
    streams
        .iter()
        .any(|stream| is_same(path, Path::new(stream)))
}

impl Target {
    pub fn of(given: &Path) -> Result<Target, Failure> {
        let failed = |error: io::Error| Failure::file(given, words(&error));
        let path = resolved(given).map_err(failed)?;
        let folder = folder_of(&path);
        let Some(name) = path.file_name() else {
            return Err(Failure::file(given, "is no name of a file"));
        };
        let folder = folder.canonicalize().map_err(|error| {
            let shown = folder.display();
            Failure::file(given, format!("folder {shown}: {}", words(&error)))
        })?;
        let target = Target {
            given: given.to_path_buf(),
            path: folder.join(name),
            folder,
            is_logged: false,
        };
        match fs::metadata(given) {
            Ok(about) if about.is_dir() => Err(Failure::file(given, "it is a folder")),
            Ok(about) if !about.is_file() => Err(Failure::file(given, "it is no regular file")),
            Ok(_) if is_printed_to(&target.path) => {
                let what = "can't be written: the report is printed to it";
                Err(Failure::file(given, what))
            }
            Err(_) if names_folder(given) => Err(Failure::file(given, "no such folder")),
            _ => Ok(target),
        }
    }

    pub fn exists(&self) -> bool {
        self.path.exists()
    }

    /// Its name with something behind it, in the same folder.
    fn beside(&self, ending: &str) -> PathBuf {
        let mut name = self.path.clone().into_os_string();
        name.push(ending);
        PathBuf::from(name)
    }

    /// Where the new file is written before it takes the old one's place.
    pub fn temporary(&self) -> PathBuf {
        self.beside(".tmp")
    }

    /// The file by whose lock runs are kept apart.
    pub fn lock(&self) -> PathBuf {
        self.beside(".lock")
    }

    /// The log of the runs on a master.
    pub fn log(&self) -> PathBuf {
        self.beside(".log")
    }

    /// The same as a file to be written, named as the master is given where it lies beside that name.
    pub fn log_target(&self) -> Result<Target, Failure> {
        let mut given = self.given.clone().into_os_string();
        given.push(".log");
        let log = Target::of(Path::new(&given))?;
        if log.path == self.log() {
            return Ok(log);
        }
        Target::of(&self.log())
    }

    /// Every name under which something is written for this file.
    fn names(&self) -> Vec<PathBuf> {
        let mut names = vec![self.path.clone(), self.temporary(), self.lock()];
        if self.is_logged {
            names.extend([".log", ".log.tmp"].map(|ending| self.beside(ending)));
        }
        names
    }

    /// The access to the file that is there.
    pub fn access(&self) -> Option<Access> {
        Access::of(&fs::File::open(&self.path).ok()?).ok()
    }

    /// Sees that the file, and what is written beside it, is none of the inputs.
    pub fn apart_from(&self, inputs: &[&Path]) -> Result<(), Failure> {
        for input in inputs {
            if self.names().iter().any(|name| is_same(name, input)) {
                let shown = input.display();
                let what = format!("can't be written: the run reads {shown}, which is this file or one that is written beside it");
                return Err(Failure::file(&self.given, what));
            }
        }
        Ok(())
    }
}

/// Sees that all targets, and what is written beside them, are different files.
pub fn all_apart(targets: &[&Target]) -> Result<(), Failure> {
    let mut names: HashMap<PathBuf, usize> = HashMap::new();
    let mut files: HashMap<(u64, u64), usize> = HashMap::new();
    for (at, target) in targets.iter().enumerate() {
        let is_file = identity(&target.path).and_then(|file| files.insert(file, at));
        let named = target.names().into_iter();
        let shared = named.filter_map(|name| names.insert(name, at));
        if let Some(other) = shared.chain(is_file).find(|&other| other != at) {
            let shown = targets[other].given.display();
            let what = format!(
                "can't be written: the run writes {shown}, or beside it, under the same name"
            );
            return Err(Failure::file(&target.given, what));
        }
    }
    Ok(())
}

/// The device and number of the file that a path leads to.
fn identity(path: &Path) -> Option<(u64, u64)> {
    let about = fs::metadata(path).ok()?;
    Some((about.dev(), about.ino()))
}

/// Whether two paths lead to one file.
fn is_same(one: &Path, other: &Path) -> bool {
    let one = identity(one);
    one.is_some() && one == identity(other)
}
