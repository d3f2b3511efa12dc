//! Cases through both engines: made, or replayed from files; and those saved in which they part.

use std::fs;
use std::io::{self, Write};
use std::path::{Path, PathBuf};
use std::time::Duration;

use agreement::engine::{Linked, Remote};
use agreement::older::Older;
use agreement::replay;
use agreement::run::{run as run_cases, Found, Options, Pair, Report};
use agreement::text::{read, written, Fixed};
use fantanolive::raw;
use fantanolive_program::{counted, grouped, words, Arguments, Failure, Progress};

use crate::asked::Asked;

/// How long a run is where the number of cases isn't given.
const USUAL_TIME: Duration = Duration::from_secs(60);

/// The library's calls.
fn library() -> Linked {
    // SAFETY: the calls of the library by their names.
    unsafe { Linked::new(&raw::addresses()) }
}

/// Cases made or replayed, through both engines.
pub fn compared(
    arguments: &Arguments,
    progress: &Progress,
    asked: &Asked,
    calls: &[usize],
    other: &mut Remote,
) -> Result<Report, Failure> {
    let mut pair = Pair {
        ours: &mut library(),
        theirs: other,
        older: Older {
            request: asked.request,
        },
    };
    let options = Options {
        calls: calls.to_vec(),
        cases: asked.cases,
        time: USUAL_TIME,
        seed: asked.seed,
        shrinks: true,
        limits: arguments.flag("--limits"),
    };
    let mut tell = |cases: u64, kinds: usize| {
        let kinds = counted(kinds as u64, "kind");
        progress.now(format!("{} cases, {kinds} of difference", grouped(cases)));
    };
    match arguments.value("--replay") {
        None => Ok(run_cases(&mut pair, &options, &mut tell)),
        Some(folder) => replayed(&mut pair, &options, Path::new(folder)),
    }
}

/// The cases of the files of a folder, or of one file.
fn replayed(pair: &mut Pair, options: &Options, folder: &Path) -> Result<Report, Failure> {
    let unread = |path: &Path, error: &io::Error| Failure::file(path, words(error));
    let mut files: Vec<PathBuf> = match folder.is_dir() {
        true => {
            let entries = fs::read_dir(folder).map_err(|error| unread(folder, &error))?;
            entries.flatten().map(|entry| entry.path()).collect()
        }
        false => vec![folder.to_path_buf()],
    };
    files.retain(|path| path.extension().is_some_and(|ending| ending == "txt"));
    files.sort();
    let mut cases = Vec::new();
    for path in &files {
        let text = fs::read_to_string(path).map_err(|error| unread(path, &error))?;
        cases.extend(read(&text).map_err(|what| Failure::file(path, what))?);
    }
    if cases.is_empty() {
        return Err(Failure::file(folder, "no cases in files *.txt"));
    }
    Ok(replay::replay(pair, options, &cases))
}

/// Saves the differences as cases, each in a file of its own.
pub fn save(arguments: &Arguments, found: &[Found]) -> Result<(), Failure> {
    let Some(folder) = arguments.value("--save").map(Path::new) else {
        return Ok(());
    };
    fs::create_dir_all(folder).map_err(|error| Failure::file(folder, words(&error)))?;
    for (at, one) in found.iter().enumerate() {
        let kind = &one.difference.kind.field;
        let plain = |letter: char| {
            if letter.is_ascii_alphanumeric() {
                letter
            } else {
                '-'
            }
        };
        let kind: String = kind.chars().take(50).map(plain).collect();
        let name = format!("{:02}-{}-{kind}", at + 1, one.case.call().name);
        let fixed = Fixed {
            name: name.clone(),
            sentences: Vec::new(),
            case: one.case.clone(),
            wanted: one.ours.clone(),
        };
        let path = folder.join(format!("{name}.txt"));
        let file = fs::File::create_new(&path);
        let done = file.and_then(|mut file| file.write_all(written(&fixed).as_bytes()));
        done.map_err(|error| Failure::file(&path, words(&error)))?;
    }
    Ok(())
}
