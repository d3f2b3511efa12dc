//! What keeps a command from being carried out, and the exit status.

use std::fmt;
use std::io;
use std::path::Path;

use fantanolive::Refusal;

/// The exit status.
#[derive(Clone, Copy, Debug, PartialEq, Eq)]
pub enum Status {
    /// Carried out, nothing rejected.
    Done = 0,
    /// Carried out, something rejected, faulty or not posted.
    Rejects = 1,
    /// Refused by the library: no file is changed.
    Refused = 2,
    /// A problem with a file or an argument: no file is changed.
    Problem = 3,
    /// Carried out, but the report could not be written.
    Unreported = 4,
    /// Another run holds the file.
    Busy = 5,
    /// No row has the key.
    NotFound = 6,
}

/// What each status means, for the help.
pub const STATUSES: [(Status, &str); 7] = [
    (Status::Done, "carried out, nothing rejected"),
    (
        Status::Rejects,
        "carried out, with rejects: listed lines, faulty records",
    ),
    (Status::Refused, "refused, nothing changed"),
    (
        Status::Problem,
        "a file or argument problem, nothing changed",
    ),
    (
        Status::Unreported,
        "carried out and on the disk, but the report could not be written:\n     don't run it again",
    ),
    (
        Status::Busy,
        "busy: another run holds the file; --wait SECONDS waits for it",
    ),
    (Status::NotFound, "not found (find, edit)"),
];

impl Status {
    /// That of a command that was carried out.
    pub fn of_rejects(any: bool) -> Status {
        if any {
            Status::Rejects
        } else {
            Status::Done
        }
    }

    /// That of a report that can't be written: whether a file was changed before.
    pub fn of_lost_report(changed: bool) -> Status {
        if changed {
            Status::Unreported
        } else {
            Status::Problem
        }
    }
}

#[derive(Debug)]
pub enum Failure {
    /// An argument is wrong: a message, and the command whose help says more.
    Argument {
        message: String,
        command: Option<&'static str>,
    },
    /// A file can't be read, locked or written.
    File(String),
    /// Another run holds a file.
    Busy(String),
    /// A call was refused; the notes say what is known of the files.
    Refused {
        refusal: Refusal,
        notes: Vec<String>,
    },
    /// The run isn't carried out for reasons that the notes give.
    Stopped { message: String, notes: Vec<String> },
    /// Standard output takes no more; whether a file was changed before.
    Output { error: io::Error, changed: bool },
}

impl Failure {
    pub fn status(&self) -> Status {
        match self {
            Failure::Refused {
                refusal: Refusal::NoSuchRow,
                ..
            } => Status::NotFound,
            Failure::Refused { .. } => Status::Refused,
            Failure::Busy(_) => Status::Busy,
            Failure::Output { changed, .. } => Status::of_lost_report(*changed),
            Failure::Argument { .. } | Failure::File(_) | Failure::Stopped { .. } => {
                Status::Problem
            }
        }
    }

    /// A file and what is the matter with it.
    pub fn file(path: &Path, what: impl fmt::Display) -> Failure {
        Failure::File(format!("{}: {what}", shown(path)))
    }

    /// The same message on a file that another run holds.
    pub fn busy(path: &Path, what: impl fmt::Display) -> Failure {
        Failure::Busy(format!("{}: {what}", shown(path)))
    }
}

/// A path as messages name it.
pub fn shown(path: &Path) -> String {
    if path == Path::new(STANDARD) {
        return "standard input".to_string();
    }
    path.display().to_string()
}

/// What stands for standard input or standard output in the place of a file.
pub const STANDARD: &str = "-";

/// What an error of the system means, in words.
pub fn words(error: &io::Error) -> String {
    use io::ErrorKind::*;
    let known = match error.kind() {
        NotFound => "no such file or folder",
        PermissionDenied => "permission denied",
        StorageFull => "the disk is full",
        QuotaExceeded => "the disk quota is used up",
        FileTooLarge => "larger than a file may be here",
        ReadOnlyFilesystem => "the disk is read-only",
        IsADirectory => "it is a folder",
        NotADirectory => "a part of its path is no folder",
        _ => return error.to_string(),
    };
    known.to_string()
}

/// A number with a comma between its groups of three digits.
pub fn grouped(number: u64) -> String {
    let digits = number.to_string();
    let mut text = String::new();
    for (at, digit) in digits.chars().enumerate() {
        if at > 0 && (digits.len() - at).is_multiple_of(3) {
            text.push(',');
        }
        text.push(digit);
    }
    text
}

/// A number of things by their words for one and for several.
pub fn headed(number: u64, (one, several): (&str, &str)) -> String {
    let words = if number == 1 { one } else { several };
    format!("{} {words}", grouped(number))
}

/// A number of things, in the singular for one.
pub fn counted(number: u64, thing: &str) -> String {
    let plural = if number == 1 { "" } else { "s" };
    format!("{} {thing}{plural}", grouped(number))
}
