//! What is asked of a run, and the other engine.

use std::ffi::OsStr;
use std::time::{Duration, SystemTime, UNIX_EPOCH};

use agreement::calls::{named, OWN};
use agreement::engine::Remote;
use fantanolive_program::{Arguments, Failure};

/// How long an engine may take for a case.
const TIME_LIMIT: Duration = Duration::from_secs(10);
/// The last request of document 02.
const LAST_REQUEST: u64 = 14;

/// What is asked of a run besides the engine.
pub struct Asked {
    pub calls: Vec<usize>,
    pub cases: Option<u64>,
    pub seed: u64,
    pub request: u64,
}

pub fn asked(arguments: &Arguments) -> Result<Asked, Failure> {
    let request = arguments.number("--up-to")?.unwrap_or(LAST_REQUEST);
    if request > LAST_REQUEST {
        let known =
            format!("--up-to wants a request, 0 (the base) to {LAST_REQUEST}, not {request}");
        return Err(arguments.wrong(known));
    }
    let clock = SystemTime::now().duration_since(UNIX_EPOCH);
    let clock = clock.map_or(1, |since| since.as_nanos() as u64);
    Ok(Asked {
        calls: calls_asked(arguments)?,
        cases: arguments.number("--cases")?,
        seed: arguments.number("--seed")?.unwrap_or(clock % 1_000_000_000),
        request,
    })
}

fn calls_asked(arguments: &Arguments) -> Result<Vec<usize>, Failure> {
    let Some(list) = arguments.value("--calls") else {
        return Ok((0..OWN).collect());
    };
    let list = list.to_string_lossy();
    list.split(',')
        .map(|name| {
            let unknown = || arguments.wrong(format!("--calls has no call of this name: '{name}'"));
            named(name.trim_start_matches("fantanolive_")).ok_or_else(unknown)
        })
        .collect()
}

/// The other engine: a shared library by its name, else a program.
pub fn other(arguments: &Arguments) -> Result<Remote, Failure> {
    let path = arguments.path(0);
    if !path.is_file() {
        return Err(Failure::file(path, "no such file"));
    }
    let name = path
        .file_name()
        .map(OsStr::to_string_lossy)
        .unwrap_or_default();
    let is_library = name.ends_with(".so") || name.contains(".so.");
    let prefix = arguments.value("--prefix").map(OsStr::to_string_lossy);
    let prefix = prefix.unwrap_or("fantanolive_".into());
    let started = match is_library {
        true => Remote::library(path, &prefix, TIME_LIMIT),
        false => Remote::program(path, TIME_LIMIT),
    };
    started.map_err(|error| Failure::file(path, error))
}
