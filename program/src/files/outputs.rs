//! What a run writes. Every file that a command writes goes through here: the state that it replaces (a master or a table of
//! contact records) and the files that it makes. They are told apart from the inputs and from each other, nothing is
//! overwritten by a slip, each is locked, and all are put in place together.

use std::borrow::Cow;
use std::io::Write;
use std::path::{Path, PathBuf};
use std::time::Duration;

use fantanolive::RECORD;

use crate::arguments::Arguments;
use crate::failure::{shown, Failure, STANDARD};
use crate::files::access::Access;
use crate::files::lock::Lock;
use crate::files::protect::may_be_made;
use crate::files::replace::{
    self, stage, write_all, write_lines, NewFile, Placed, Staged, WriteFailure, OWNER_ALONE,
};
use crate::files::target::{all_apart, Target};
use crate::progress::Progress;

/// Where a file that is made goes.
enum Place {
    File(Target),
    Standard,
}

pub struct Outputs {
    /// The first operand, where the run replaces it.
    state: Option<Target>,
    /// The files that options name, by the option.
    made: Vec<(&'static str, Place)>,
    mode: Option<u32>,
    /// Whether a line end is written behind each record.
    has_line_ends: bool,
    _locks: Vec<Lock>,
}

/// Stands in the place of an option for files whose names a command makes itself.
const NAMED_BY_COMMAND: &str = "";

/// The bits of a mode by which a file is read.
const READ: u32 = 0o444;

/// What a command writes.
pub struct Wanted<'a> {
    /// Whether the first operand is replaced.
    pub state: bool,
    /// The options that name files to be made.
    pub made: &'a [&'static str],
    pub inputs: &'a [&'a Path],
}

/// Sees that a state is there, or with --new that it isn't; an empty one may be what is left of one.
pub fn expect(target: &Target, arguments: &Arguments) -> Result<(), Failure> {
    let length = std::fs::metadata(&target.path).map(|about| about.len());
    let may_be_new = arguments.command.option("--new").is_some();
    let what = match (length, arguments.flag("--new")) {
        (Ok(1..), true) => "is there already; --new is for a first run from no file",
        (Err(_), false) if may_be_new => "no such file; a first run from no file takes --new",
        (Err(_), false) if !target.exists() => "no such file",
        (Ok(0), false) if may_be_new => {
            "is empty: it may have been cut off; --new takes it for a new one"
        }
        (Ok(0), false) => "is empty: it may have been cut off",
        _ => return Ok(()),
    };
    Err(Failure::file(&target.given, what))
}

/// The place that an option names.
fn place_of(arguments: &Arguments, option: &str) -> Result<Place, Failure> {
    let given = arguments.needed(option);
    if given == STANDARD {
        return Ok(Place::Standard);
    }
    Ok(Place::File(Target::of(Path::new(given))?))
}

impl Outputs {
    /// Sees that all that is wanted may be written, and locks it. Nothing is changed by that.
    pub fn open(arguments: &Arguments, wanted: &Wanted) -> Result<Outputs, Failure> {
        let mut outputs = Outputs::none(arguments)?;
        if wanted.state {
            let state = Target::of(arguments.path(0))?;
            outputs.state = Some(Target {
                is_logged: true,
                ..state
            });
        }
        for &option in wanted.made {
            outputs.made.push((option, place_of(arguments, option)?));
        }
        outputs.secured(arguments, wanted.inputs)
    }

    /// The same for files whose names the command makes itself.
    pub fn open_files(
        arguments: &Arguments,
        files: &[PathBuf],
        inputs: &[&Path],
    ) -> Result<Outputs, Failure> {
        let mut outputs = Outputs::none(arguments)?;
        for file in files {
            let place = Place::File(Target::of(file)?);
            outputs.made.push((NAMED_BY_COMMAND, place));
        }
        outputs.secured(arguments, inputs)
    }

    fn none(arguments: &Arguments) -> Result<Outputs, Failure> {
        Ok(Outputs {
            state: None,
            made: Vec::new(),
            mode: arguments.mode()?,
            has_line_ends: arguments.flag("--lines"),
            _locks: Vec::new(),
        })
    }

    fn secured(mut self, arguments: &Arguments, inputs: &[&Path]) -> Result<Outputs, Failure> {
        let wait = Duration::from_secs(arguments.number("--wait")?.unwrap_or(0));
        self.see_apart(inputs)?;
        self.see_allowed(arguments)?;
        let locks = self.targets().map(|target| Lock::take(target, wait));
        let locks = locks.collect::<Result<_, _>>()?;
        self._locks = locks;
        // another run may have been at work before the lock was taken
        self.see_allowed(arguments)?;
        Ok(self)
    }

    /// The master or table that the command replaces.
    pub fn master(&self) -> &Target {
        self.state.as_ref().expect("the command replaces it")
    }

    fn targets(&self) -> impl Iterator<Item = &Target> {
        self.state.iter().chain(self.made_files())
    }

    fn made_files(&self) -> impl Iterator<Item = &Target> {
        self.made.iter().filter_map(|(_, place)| match place {
            Place::File(target) => Some(target),
            Place::Standard => None,
        })
    }

    fn see_apart(&self, inputs: &[&Path]) -> Result<(), Failure> {
        let targets: Vec<&Target> = self.targets().collect();
        for target in &targets {
            target.apart_from(inputs)?;
        }
        all_apart(&targets)
    }

    fn see_allowed(&self, arguments: &Arguments) -> Result<(), Failure> {
        if let Some(target) = &self.state {
            expect(target, arguments)?;
        }
        let force = arguments.flag("--force");
        self.made_files()
            .try_for_each(|target| may_be_made(target, force))
    }

    /// The file that an option names; none where that is standard output.
    fn file_of(&self, option: &str) -> Option<&Target> {
        let named = self.made.iter().find(|(name, _)| *name == option);
        match named {
            Some((_, Place::File(target))) => Some(target),
            _ => None,
        }
    }

    /// Writes a file that an option names under its temporary name, or keeps it for standard output.
    pub fn stage_made(
        &self,
        option: &str,
        progress: &Progress,
        write: impl FnOnce(&mut dyn Write) -> Result<(), WriteFailure>,
    ) -> Result<Staged<'static>, Failure> {
        if let Some(target) = self.file_of(option) {
            return stage(target, &NewFile::of_mode(self.mode), progress, write);
        }
        let mut bytes = Vec::new();
        match write(&mut bytes) {
            Ok(()) => Ok(Staged::Standard(Cow::Owned(bytes))),
            Err(WriteFailure::Other(failure)) => Err(failure),
            Err(WriteFailure::Write(error)) => Err(Failure::Output {
                error,
                changed: false,
            }),
        }
    }

    /// The same from bytes.
    pub fn stage_bytes<'a>(
        &self,
        option: &str,
        progress: &Progress,
        bytes: &'a [u8],
    ) -> Result<Staged<'a>, Failure> {
        match self.file_of(option) {
            None => Ok(Staged::Standard(Cow::Borrowed(bytes))),
            Some(target) => {
                let new = NewFile::of_mode(self.mode);
                stage(target, &new, progress, |out| {
                    write_all(out, bytes, progress)
                })
            }
        }
    }

    /// The same from records of a width, with line ends behind them where the command writes lines.
    pub fn stage_records<'a>(
        &self,
        option: &str,
        progress: &Progress,
        bytes: &'a [u8],
        width: usize,
    ) -> Result<Staged<'a>, Failure> {
        match self.has_line_ends {
            false => self.stage_bytes(option, progress, bytes),
            true => self.stage_made(option, progress, |out| write_lines(out, bytes, width)),
        }
    }

    /// Writes one of the files that the command names, the first being 0, from records and those behind them.
    pub fn stage_file(
        &self,
        number: usize,
        progress: &Progress,
        bytes: &[u8],
        behind: &[u8],
    ) -> Result<Staged<'static>, Failure> {
        let Some((_, Place::File(target))) = self.made.get(number) else {
            unreachable!("the command names files alone");
        };
        stage(target, &NewFile::of_mode(self.mode), progress, |out| {
            if self.has_line_ends {
                write_lines(out, bytes, RECORD)?;
                return write_lines(out, behind, RECORD);
            }
            write_all(out, bytes, progress)?;
            Ok(out.write_all(behind)?)
        })
    }

    /// Writes the new state under its temporary name.
    pub fn stage_state(
        &self,
        progress: &Progress,
        bytes: &[u8],
    ) -> Result<Staged<'static>, Failure> {
        let new = NewFile::of_mode(self.mode);
        stage(self.master(), &new, progress, |out| {
            write_all(out, bytes, progress)
        })
    }

    /// Writes the log of the state under its temporary name. A new one has the owner of the state, who alone writes it, and may be
    /// read by who may read the state, or new files where that is new too. No SSN is in it.
    pub fn stage_log(&self, progress: &Progress, bytes: &[u8]) -> Result<Staged<'static>, Failure> {
        let access = self.master().access();
        let of_new = self.mode.unwrap_or(OWNER_ALONE);
        let mode = access.as_ref().map_or(of_new, Access::mode);
        let new = NewFile {
            mode: mode & READ | OWNER_ALONE,
            owner: access.as_ref(),
        };
        let log = self.master().log_target()?;
        stage(&log, &new, progress, |out| Ok(out.write_all(bytes)?))
    }

    /// Puts what was staged in place, in this order, and gives the locks back.
    pub fn put_in_place(self, files: Vec<Staged>) -> Result<Placed, Failure> {
        replace::put_in_place(files)
    }
}

/// The files of a report by name.
pub fn names(written: &[PathBuf]) -> Vec<String> {
    let name = |path: &PathBuf| match path.as_os_str() == STANDARD {
        true => "standard output".to_string(),
        false => shown(path),
    };
    written.iter().map(name).collect()
}
