//! Files made and replaced whole. Each new file is written under a temporary name beside its own and synced; only when all are
//! there are they renamed, in the order given; then the folders are synced. Where something fails the temporary files go.

use std::borrow::Cow;
use std::fs::{self, File, OpenOptions, Permissions};
use std::io::{self, BufWriter, Write};
use std::os::unix::fs::{OpenOptionsExt, PermissionsExt};
use std::path::{Path, PathBuf};
use std::sync::atomic::{AtomicBool, Ordering};

use crate::failure::{shown, words, Failure, STANDARD};
use crate::files::access::Access;
use crate::files::leftovers::{self, Placing};
use crate::files::target::Target;
use crate::progress::Progress;
use crate::system::rename_new;

/// The mode of a file that holds SSNs: its owner reads and writes it, and no one else.
pub const OWNER_ALONE: u32 = 0o600;

/// Flags of Linux: follow no link; don't wait for another end of a pipe.
const NO_LINK: i32 = 0o400_000;
const NO_WAIT: i32 = 0o4000;

/// Whether the run has changed a file.
static CHANGED: AtomicBool = AtomicBool::new(false);

/// Whether files of this run are in place, so that it must not be run again.
pub fn has_changed() -> bool {
    CHANGED.load(Ordering::SeqCst)
}

/// What a new file gets where there is no old one whose access it keeps.
pub struct NewFile<'a> {
    pub mode: u32,
    /// The file whose owner and group it gets where that may be.
    pub owner: Option<&'a Access>,
}

impl NewFile<'_> {
    pub fn of_mode(mode: Option<u32>) -> NewFile<'static> {
        NewFile {
            mode: mode.unwrap_or(OWNER_ALONE),
            owner: None,
        }
    }
}

/// A new file under its temporary name, which is removed unless the file is put in place.
pub struct StagedFile {
    given: PathBuf,
    path: PathBuf,
    folder: PathBuf,
    temporary: PathBuf,
    /// Whether it takes the place of another.
    replaces: bool,
    /// Whether its name is to be on the disk before the files behind it are put in place.
    before_others: bool,
    in_place: bool,
}

/// What a run writes at its end.
pub enum Staged<'a> {
    File(StagedFile),
    /// For standard output.
    Standard(Cow<'a, [u8]>),
}

impl Staged<'_> {
    /// The same, with its name on the disk before the files behind it are put in place.
    pub fn before_others(mut self) -> Self {
        if let Staged::File(file) = &mut self {
            file.before_others = true;
        }
        self
    }
}

impl Drop for StagedFile {
    fn drop(&mut self) {
        if !self.in_place {
            leftovers::remove(&self.temporary);
        }
    }
}

/// Why the bytes of a new file were not written.
pub enum WriteFailure {
    Write(io::Error),
    Other(Failure),
}

impl From<io::Error> for WriteFailure {
    fn from(error: io::Error) -> WriteFailure {
        WriteFailure::Write(error)
    }
}

/// Bytes that are written at a time, so that progress can be told.
const PART: usize = 1 << 24;

/// Writes bytes, and says how much of them is written.
pub fn write_all(
    out: &mut dyn Write,
    bytes: &[u8],
    progress: &Progress,
) -> Result<(), WriteFailure> {
    let mut done = 0;
    for part in bytes.chunks(PART) {
        out.write_all(part)?;
        done += part.len();
        progress.done(done, bytes.len());
    }
    Ok(())
}

/// Writes records of a width with a line feed behind each.
pub fn write_lines(out: &mut dyn Write, bytes: &[u8], width: usize) -> Result<(), WriteFailure> {
    let mut out = BufWriter::with_capacity(1 << 16, out);
    for record in bytes.chunks(width) {
        out.write_all(record)?;
        out.write_all(b"\n")?;
    }
    Ok(out.flush()?)
}

fn not_written(target: &Target, what: &str) -> Failure {
    let what = format!("can't be written: {what}; no file is changed");
    Failure::file(&target.given, what)
}

/// The access to the old file, where there is one. One that may not be written to is not replaced either.
fn old_access(target: &Target) -> Result<Option<Access>, Failure> {
    let mut options = OpenOptions::new();
    options.write(true).custom_flags(NO_LINK | NO_WAIT);
    let old = match options.open(&target.path) {
        Ok(old) => old,
        Err(error) if error.kind() == io::ErrorKind::NotFound => return Ok(None),
        Err(error) => return Err(not_written(target, &words(&error))),
    };
    let access = Access::of(&old).map_err(|what| not_written(target, &what))?;
    if access.is_read_only() {
        let what = "its owner made it read-only; `chmod u+w` lets it be replaced";
        return Err(not_written(target, what));
    }
    Ok(Some(access))
}

/// Makes the temporary file, its owner's alone. What a run that was cut off left under its name goes first.
fn create(temporary: &Path) -> io::Result<File> {
    match fs::remove_file(temporary) {
        Err(error) if error.kind() != io::ErrorKind::NotFound => return Err(error),
        _ => {}
    }
    leftovers::made(temporary, || {
        OpenOptions::new()
            .write(true)
            .create_new(true)
            .mode(OWNER_ALONE)
            .open(temporary)
    })
}

/// Gives a file its mode when it is written, so that no one reads a part of it. The mode is set as it is given, whatever the umask. Where
/// it can't have the group that it should, it is its owner's alone.
fn finish(file: &File, new: &NewFile) -> io::Result<()> {
    let mut mode = new.mode;
    if let Some(access) = new.owner {
        access.share_owner(file);
        if !access.has_group_of(file) {
            mode = OWNER_ALONE;
        }
    }
    file.set_permissions(Permissions::from_mode(mode))
}

/// Writes a new file under its temporary name and has it on the disk, with the access of the old one.
pub fn stage(
    target: &Target,
    new: &NewFile,
    progress: &Progress,
    write: impl FnOnce(&mut dyn Write) -> Result<(), WriteFailure>,
) -> Result<Staged<'static>, Failure> {
    progress.now(format!("writing {}", target.given.display()));
    let failed = |error: io::Error| not_written(target, &words(&error));
    let old = old_access(target)?;
    let temporary = target.temporary();
    let mut file = create(&temporary).map_err(failed)?;
    let staged = StagedFile {
        given: target.given.clone(),
        path: target.path.clone(),
        folder: target.folder.clone(),
        temporary,
        replaces: old.is_some(),
        before_others: false,
        in_place: false,
    };
    if let Some(old) = &old {
        let kept = old.keep(&file);
        kept.map_err(|what| not_written(target, &what))?;
    }
    match write(&mut file) {
        Ok(()) => {}
        Err(WriteFailure::Write(error)) => return Err(failed(error)),
        Err(WriteFailure::Other(failure)) => return Err(failure),
    }
    if old.is_none() {
        finish(&file, new).map_err(failed)?;
    }
    progress.now(format!(
        "waiting until {} is on the disk",
        target.given.display()
    ));
    file.sync_all().map_err(failed)?;
    Ok(Staged::File(staged))
}

/// What was written, for the report.
#[derive(Default)]
pub struct Placed {
    pub written: Vec<PathBuf>,
    /// Where the files are in place, but a crash of the system may bring the old ones back.
    pub warning: Option<String>,
}

impl StagedFile {
    fn rename(&mut self, placing: &mut Placing) -> io::Result<()> {
        if self.replaces {
            fs::rename(&self.temporary, &self.path)?;
        } else {
            rename_new(&self.temporary, &self.path)?;
        }
        self.in_place = true;
        placing.is_placed(&self.temporary);
        Ok(())
    }

    /// Syncs the folder where the file's name is to be on the disk before others.
    fn sync_name(&self) -> io::Result<()> {
        match self.before_others {
            true => sync_folder(&self.folder),
            false => Ok(()),
        }
    }
}

/// Has the names in a folder on the disk.
fn sync_folder(folder: &Path) -> io::Result<()> {
    File::open(folder).and_then(|file| file.sync_all())
}

/// Takes back what was put in place before a file that can't be: new files go. The answer names those that stay.
fn take_back(placed: &[StagedFile]) -> Vec<String> {
    let mut stay = Vec::new();
    for file in placed {
        if file.replaces || fs::remove_file(&file.path).is_err() {
            stay.push(shown(&file.given));
        }
    }
    stay
}

/// A file that can't be replaced, or whose name can't be synced, behind those that were put in place.
fn not_placed(file: &StagedFile, placed: &[StagedFile], error: &io::Error) -> Failure {
    let stay = take_back(placed);
    let state = match &stay[..] {
        [] => "no file is changed".to_string(),
        stay if file.in_place => format!("{} is new already, the others are not", stay.join(", ")),
        stay => format!(
            "{} is new already, this file is the old one",
            stay.join(", ")
        ),
    };
    let what = match file.in_place {
        true => "its folder can't be synced",
        false => "can't be replaced",
    };
    Failure::file(&file.given, format!("{what}: {}; {state}", words(error)))
}

/// Writes what is for standard output; nothing is in place yet.
fn print_standard(files: &[Staged]) -> Result<(), Failure> {
    for staged in files {
        if let Staged::Standard(bytes) = staged {
            let mut out = io::stdout().lock();
            let printed = out.write_all(bytes).and_then(|()| out.flush());
            printed.map_err(|error| Failure::Output {
                error,
                changed: false,
            })?;
        }
    }
    Ok(())
}

/// Renames the staged files in order.
fn rename_all(files: Vec<Staged>) -> Result<Vec<StagedFile>, Failure> {
    let mut placing = Placing::begin();
    let mut placed: Vec<StagedFile> = Vec::new();
    let mut waiting = files.into_iter();
    while let Some(staged) = waiting.next() {
        let Staged::File(mut file) = staged else {
            continue;
        };
        if let Err(error) = file.rename(&mut placing) {
            let failure = not_placed(&file, &placed, &error);
            drop(placing);
            drop((file, waiting));
            return Err(failure);
        }
        let synced = file.sync_name();
        placed.push(file);
        if let (Err(error), Some(file)) = (synced, placed.last()) {
            let failure = not_placed(file, &placed, &error);
            drop(placing);
            drop(waiting);
            return Err(failure);
        }
    }
    CHANGED.store(!placed.is_empty(), Ordering::SeqCst);
    Ok(placed)
}

/// Writes the staged files in order, standard output before the others, and syncs their folders.
pub fn put_in_place(files: Vec<Staged>) -> Result<Placed, Failure> {
    print_standard(&files)?;
    let printed = files
        .iter()
        .filter(|staged| matches!(staged, Staged::Standard(_)))
        .map(|_| PathBuf::from(STANDARD));
    let mut written: Vec<PathBuf> = printed.collect();
    let placed = rename_all(files)?;
    written.extend(placed.iter().map(|file| file.given.clone()));
    let mut folders: Vec<&Path> = Vec::new();
    for file in &placed {
        if !folders.contains(&&*file.folder) {
            folders.push(&file.folder);
        }
    }
    let names: Vec<String> = placed.iter().map(|file| shown(&file.given)).collect();
    let warning = folders.iter().find_map(|folder| {
        let error = sync_folder(folder).err()?;
        Some(format!(
            "{}: in place, but the folder {} can't be synced: {}",
            names.join(", "),
            folder.display(),
            words(&error)
        ))
    });
    Ok(Placed { written, warning })
}
