//! Plants the faults of `agreement/faults` one by one in a copy of the reference, builds it behind the C interface, and sees that
//! `fantanolive agree` and the fixed cases find each.
//!
//!     faults PROGRAM [LABEL..]
//!     faults --build LABEL LIBRARY
//!
//! Without labels all are planted; --build leaves the library with one fault. PROGRAM is the program fantanolive. For each fault a line: its label, the processor time that `agree` took
//! to find and shrink it, the details and rows of the largest difference told, and how many fixed cases find it.

mod edit;

use std::env;
use std::fs;
use std::path::{Path, PathBuf};
use std::process::{Command, ExitCode};

use edit::Edit;

/// Rounds of `agree`: the options, a later round only where those before find nothing. They have numbers of cases, so that a busy machine changes
/// nothing.
const ROUNDS: [&[&str]; 3] = [
    &["--cases", "2000", "--seed", "1"],
    &["--cases", "20000", "--seed", "2"],
    &["--cases", "300000", "--seed", "3"],
];
/// What a difference may have at most.
const MOST_DETAILS: usize = 3;
const MOST_ROWS: usize = 3;
/// Of a hundred faults so many must be found by the fixed cases.
const BY_CASES: usize = 95;

extern "C" {
    fn getrusage(whose: i32, usage: *mut [i64; 18]) -> i32;
}

/// The processor time of all processes that were started and have ended, in seconds.
fn processor_seconds() -> f64 {
    const CHILDREN: i32 = -1;
    let mut usage = [0; 18];
    // SAFETY: a struct rusage has two times of two numbers, then fourteen numbers.
    unsafe { getrusage(CHILDREN, &mut usage) };
    (usage[0] + usage[2]) as f64 + (usage[1] + usage[3]) as f64 / 1e6
}

fn root() -> PathBuf {
    Path::new(env!("CARGO_MANIFEST_DIR")).join("../../..")
}

/// What was found of one fault.
struct Found {
    seconds: f64,
    details: usize,
    rows: usize,
    kinds: usize,
    by_cases: usize,
}

fn run(command: &mut Command) -> Result<(i32, String), String> {
    let output = command
        .output()
        .map_err(|error| format!("{command:?}: {error}"))?;
    let text = String::from_utf8_lossy(&output.stdout).into_owned();
    match output.status.code() {
        Some(code) if code <= 1 => Ok((code, text)),
        _ => {
            let error = String::from_utf8_lossy(&output.stderr).into_owned();
            Err(format!("{command:?}: {} {text} {error}", output.status))
        }
    }
}

/// rustc for a crate of one kind, without warnings.
fn compiler(kind: &str, name: &str, source: &Path, made: &Path) -> Command {
    let mut command = Command::new(env::var("RUSTC").unwrap_or("rustc".to_string()));
    command
        .args(["--edition", "2021", "-A", "warnings"])
        .args(["-C", "opt-level=1", "-C", "overflow-checks=on"])
        .args(["--crate-type", kind, "--crate-name", name])
        .arg(source)
        .arg("-o")
        .arg(made);
    command
}

/// A copy of the reference with a fault, as a shared library.
fn build(edit: &Edit, work: &Path) -> Result<PathBuf, String> {
    let sources = root().join("tests/rust");
    let copy = work.join("reference");
    let _ = fs::remove_dir_all(&copy);
    edit.plant(&sources.join("reference/src"), &copy)?;
    // what a fault leaves as it was isn't compiled again
    let parts = format!("incremental={}", work.join("parts").display());
    let rlib = work.join("libreference.rlib");
    let mut reference = compiler("rlib", "reference", &copy.join("lib.rs"), &rlib);
    let built = run(reference.args(["-C", &parts]))?;
    let library = work.join("libfaulty.so");
    let source = sources.join("engine/src/lib.rs");
    let mut engine = compiler("cdylib", "engine", &source, &library);
    engine.args(["-C", "panic=abort", "--extern"]);
    let linked = run(engine.arg(format!("reference={}", rlib.display())))?;
    match built.0 + linked.0 {
        0 => Ok(library),
        _ => Err(format!("{} doesn't compile", edit.label)),
    }
}

/// The numbers behind a name in a JSON text.
fn numbers(json: &str, name: &str) -> Vec<usize> {
    let name = format!("\"{name}\":");
    json.split(&name)
        .skip(1)
        .filter_map(|rest| {
            let rest = rest.trim_start();
            let end = rest.find(|letter: char| !letter.is_ascii_digit())?;
            rest[..end].parse().ok()
        })
        .collect()
}

fn agree(program: &Path, library: &Path, options: &[&str]) -> Result<(i32, String), String> {
    let mut command = Command::new(program);
    run(command
        .arg("agree")
        .arg(library)
        .arg("--json")
        .args(options))
}

fn find(program: &Path, library: &Path) -> Result<Found, String> {
    let start = processor_seconds();
    let mut json = String::new();
    for options in ROUNDS {
        let (code, text) = agree(program, library, options)?;
        json = text;
        if code == 1 {
            break;
        }
    }
    let seconds = processor_seconds() - start;
    let differences = json.split("\"seen\":").next().unwrap_or_default();
    let cases = root().join("agreement/cases");
    let by_cases = match cases.is_dir() {
        true => {
            let path = cases.to_string_lossy().into_owned();
            let (_, text) = agree(program, library, &["--replay", &path])?;
            numbers(&text, "times").iter().sum::<usize>()
                + numbers(&text, "more").iter().sum::<usize>()
        }
        false => 0,
    };
    let details = numbers(differences, "details");
    Ok(Found {
        seconds,
        details: details.iter().copied().max().unwrap_or(0),
        rows: numbers(differences, "rows").into_iter().max().unwrap_or(0),
        kinds: details.len(),
        by_cases,
    })
}

fn report(edit: &Edit, found: &Found) -> bool {
    let is_found = found.kinds > 0 && found.seconds <= 60.0;
    let (details, rows) = edit.least;
    let is_small = found.details <= details.max(MOST_DETAILS) && found.rows <= rows.max(MOST_ROWS);
    println!(
        "{:<36}{:>6.1} s  kinds {:>2}  details {}  rows {}  fixed cases {:>3}{}{}",
        edit.label,
        found.seconds,
        found.kinds,
        found.details,
        found.rows,
        found.by_cases,
        if is_found { "" } else { "  NOT FOUND" },
        if is_small { "" } else { "  NOT SMALL" },
    );
    is_found && is_small
}

fn all(program: &Path, labels: &[String]) -> Result<bool, String> {
    let edits = edit::read(&root().join("agreement/faults"))?;
    let wanted = |edit: &&Edit| labels.is_empty() || labels.contains(&edit.label);
    let edits: Vec<&Edit> = edits.iter().filter(wanted).collect();
    if edits.len() < labels.len().max(1) {
        return Err("no fault of such a label".to_string());
    }
    let work = env::temp_dir().join(format!("faults-{}", std::process::id()));
    fs::create_dir_all(&work).map_err(|error| error.to_string())?;
    let (mut good, mut by_cases) = (0, 0);
    for edit in &edits {
        let found = build(edit, &work).and_then(|library| find(program, &library))?;
        good += usize::from(report(edit, &found));
        by_cases += usize::from(found.by_cases > 0);
    }
    let _ = fs::remove_dir_all(&work);
    println!(
        "{} faults, {good} found and shrunk, {by_cases} found by the fixed cases",
        edits.len()
    );
    Ok(good == edits.len() && 100 * by_cases >= BY_CASES * edits.len())
}

/// Builds the library with one fault.
fn leave(label: &str, library: &Path) -> Result<bool, String> {
    let edits = edit::read(&root().join("agreement/faults"))?;
    let edit = edits.iter().find(|edit| edit.label == label);
    let edit = edit.ok_or("no fault of such a label")?;
    let work = env::temp_dir().join(format!("faults-{}", std::process::id()));
    fs::create_dir_all(&work).map_err(|error| error.to_string())?;
    let built = build(edit, &work)?;
    fs::copy(built, library).map_err(|error| error.to_string())?;
    let _ = fs::remove_dir_all(&work);
    Ok(true)
}

fn main() -> ExitCode {
    let mut arguments = env::args().skip(1);
    let Some(program) = arguments.next() else {
        eprintln!("usage: faults PROGRAM [LABEL..] | faults --build LABEL LIBRARY");
        return ExitCode::from(2);
    };
    let labels: Vec<String> = arguments.collect();
    let done = match (program.as_str(), &labels[..]) {
        ("--build", [label, library]) => leave(label, Path::new(library)),
        _ => all(Path::new(&program), &labels),
    };
    match done {
        Ok(true) => ExitCode::SUCCESS,
        Ok(false) => ExitCode::FAILURE,
        Err(message) => {
            eprintln!("faults: {message}");
            ExitCode::from(2)
        }
    }
}
