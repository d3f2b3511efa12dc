//! Files read whole. Of one that is longer than the library takes the front alone is read, and as many bytes are lent to the
//! library that it sees it.

use std::fs::File;
use std::io::{self, Read};
use std::os::fd::AsFd;
use std::os::unix::fs::FileExt;
use std::path::{Path, PathBuf};

use crate::code_page::{convert, Charset};
use crate::failure::{shown, words, Failure, STANDARD};
use crate::files::length;
use crate::files::lines::records_of;
use crate::files::protect::reads_as_master;
use crate::memory::zeros;
use crate::progress::Progress;
use crate::records::kinds::FileKind;
use fantanolive::Refusal;

/// A file that was read.
pub struct Input {
    pub path: PathBuf,
    pub kind: &'static FileKind,
    pub charset: Charset,
    /// Whether it was a file of lines.
    pub of_lines: bool,
    /// What was read, and behind it the room that was asked for.
    pub bytes: Vec<u8>,
    /// How much was read: the whole file; or one record more than the library takes, zeros behind the front.
    pub read: usize,
    /// How long the file is, or how much was read where it does not say.
    pub length: u64,
    /// The file, where it can be read again.
    file: Option<File>,
}

/// Bytes that are read at a time, so that progress can be told.
const PART: usize = 1 << 24;

/// Bytes that are read of a file that is longer than the library takes.
const FRONT: usize = 1 << 16;

impl Input {
    /// A file that is not there yet, with room for so many bytes.
    pub fn none(path: &Path, kind: &'static FileKind, room: usize) -> Result<Input, Failure> {
        Ok(Input {
            path: path.to_path_buf(),
            kind,
            charset: Charset::Ebcdic,
            of_lines: false,
            bytes: zeros(room)?,
            read: 0,
            length: 0,
            file: None,
        })
    }

    /// Fills a buffer with the bytes of the file from a place on, as they were read.
    pub fn read_again(&self, place: usize, bytes: &mut [u8]) -> Result<(), Failure> {
        let read = match &self.file {
            Some(file) => file.read_exact_at(bytes, place as u64),
            None => Err(io::Error::other("it can be read once alone")),
        };
        read.map_err(|error| unread(&self.path, &error))
    }

    /// Its name in messages.
    pub fn name(&self) -> String {
        shown(&self.path)
    }

    /// How many whole records were read.
    pub fn records(&self) -> usize {
        self.read / self.kind.width
    }

    /// A record by its number, the first being 0.
    pub fn record(&self, number: usize) -> &[u8] {
        &self.bytes[number * self.kind.width..][..self.kind.width]
    }

    pub fn last(&self) -> Option<&[u8]> {
        self.records()
            .checked_sub(1)
            .map(|number| self.record(number))
    }

    /// Whether it has more records than the library takes.
    pub fn is_too_long(&self) -> bool {
        self.records() > self.kind.most
    }

    /// Turns what was read into EBCDIC, where it is in ASCII and isn't refused by its length.
    pub fn into_ebcdic(mut self) -> Result<Input, Failure> {
        if self.charset.is_ascii() && !self.is_too_long() {
            let behind = self.bytes[..self.read].get(self.kind.width).copied();
            if let Err(place) = convert(&mut self.bytes[..self.read], Charset::Ebcdic) {
                return Err(Failure::Refused {
                    refusal: Refusal::NoCounterpart,
                    notes: match reads_as_master(&self.bytes[..self.read], self.length) {
                        true => vec![of_master(&self)],
                        false => length::of_place(&self, place, behind),
                    },
                });
            }
        }
        Ok(self)
    }
}

/// That a file which is to be in ASCII looks like a master.
fn of_master(input: &Input) -> String {
    let name = input.name();
    format!("{name} looks like a master: MASTER comes first, and is always in EBCDIC")
}

/// Reads a file. The bytes are those of the file alone.
pub fn read(
    path: &Path,
    kind: &'static FileKind,
    charset: Charset,
    progress: &Progress,
) -> Result<Input, Failure> {
    let mut input = read_with_room(path, kind, charset, &|length| length, progress)?;
    if charset != Charset::Lines {
        return Ok(input);
    }
    input.charset = Charset::Ascii;
    if input.read < most_of(kind, Charset::Lines) {
        return records_of(input);
    }
    // longer than any file of lines that the library takes
    input.read = most_of(kind, Charset::Ascii);
    Ok(input)
}

/// The bytes of one record more than the library takes, with line ends where it has them.
fn most_of(kind: &FileKind, charset: Charset) -> usize {
    let ends = if charset == Charset::Lines { 2 } else { 0 };
    (kind.most + 1) * (kind.width + ends)
}

/// Reads a file into a buffer of another length: the room for so many bytes, at least as many as were read.
pub fn read_with_room(
    path: &Path,
    kind: &'static FileKind,
    charset: Charset,
    room: &dyn Fn(usize) -> usize,
    progress: &Progress,
) -> Result<Input, Failure> {
    progress.now(format!("reading {}", shown(path)));
    let failed = |error: io::Error| unread(path, &error);
    let mut file = open(path).map_err(failed)?;
    let about = file.metadata().map_err(failed)?;
    if about.is_dir() {
        return Err(Failure::file(path, "can't be read: it is a folder"));
    }
    // One record more than the library takes shows that the file is longer.
    let most = most_of(kind, charset);
    // what was read of standard input before is gone
    let has_length = about.is_file() && path != Path::new(STANDARD);
    let (bytes, read) = if has_length {
        let length = usize::try_from(about.len()).unwrap_or(usize::MAX);
        let mut bytes = zeros(room(length.min(most)).max(length.min(most)))?;
        read_regular(&mut file, length, most, &mut bytes, progress).map_err(failed)?;
        (bytes, length.min(most))
    } else {
        read_stream(&mut file, most, room).map_err(failed)?
    };
    let length = if has_length { about.len() } else { read as u64 };
    Ok(Input {
        path: path.to_path_buf(),
        kind,
        charset,
        of_lines: charset == Charset::Lines,
        bytes,
        read,
        length,
        file: has_length.then_some(file),
    })
}

/// A file that can't be read.
pub fn unread(path: &Path, error: &io::Error) -> Failure {
    Failure::file(path, format!("can't be read: {}", words(error)))
}

/// Opens a file to be read, or standard input.
pub fn open(path: &Path) -> io::Result<File> {
    if path == Path::new(STANDARD) {
        let own = io::stdin().as_fd().try_clone_to_owned()?;
        return Ok(File::from(own));
    }
    File::open(path)
}

/// Reads a regular file of a length. Where that isn't less than the most that is taken, the length is enough, and the front for what
/// can be said of it.
fn read_regular(
    file: &mut File,
    length: usize,
    most: usize,
    bytes: &mut [u8],
    progress: &Progress,
) -> io::Result<()> {
    let changed = || io::Error::other("it changed while it was read");
    let whole = match length < most {
        true => length,
        false => most.min(FRONT),
    };
    let mut done = 0;
    for part in bytes[..whole].chunks_mut(PART) {
        match file.read_exact(part) {
            Err(error) if error.kind() == io::ErrorKind::UnexpectedEof => return Err(changed()),
            other => other?,
        }
        done += part.len();
        progress.done(done, whole);
    }
    if length == whole && file.read(&mut [0])? != 0 {
        return Err(changed());
    }
    Ok(())
}

/// Reads what has no length of its own: a pipe or a device.
fn read_stream(
    file: &mut File,
    most: usize,
    room: &dyn Fn(usize) -> usize,
) -> io::Result<(Vec<u8>, usize)> {
    let mut bytes = Vec::new();
    file.take(most as u64).read_to_end(&mut bytes)?;
    let length = bytes.len();
    bytes.resize(room(length).max(length), 0);
    Ok((bytes, length))
}
