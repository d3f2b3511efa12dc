//! Compares the library with the reference on random cases; see the README for the options.

mod both;
mod crash;
mod first;
mod interface;
mod runs;
mod seen;
mod trial;

use std::process::ExitCode;
use std::time::{Instant, SystemTime, UNIX_EPOCH};

use both::Both;
use generator::rng::mix;
use runs::{Run, RUNS};
use seen::Seen;

/// The most failing cases of a run whose seeds are printed.
const SHOWN: u64 = 20;
/// From so many cases on, each refusal, code and situation must have been seen.
const ENOUGH: u64 = 5000;

struct Options {
    cases: u64,
    seed: u64,
    /// One case alone: its run and its seed.
    single: Option<(&'static Run, u64)>,
}

fn options() -> Result<Options, String> {
    let clock = SystemTime::now()
        .duration_since(UNIX_EPOCH)
        .map_or(1, |since| since.as_nanos() as u64);
    let mut options = Options {
        cases: 100_000,
        seed: mix(clock) >> 16,
        single: None,
    };
    let mut arguments = std::env::args().skip(1);
    while let Some(name) = arguments.next() {
        let value = arguments.next().unwrap_or_default();
        let number = value
            .parse::<u64>()
            .map_err(|_| format!("{name} takes a number, not `{value}`"))?;
        match name.as_str() {
            "--cases" => options.cases = number,
            "--seed" => options.seed = number,
            _ => match runs::named(name.trim_start_matches('-')) {
                Some(run) => options.single = Some((run, number)),
                None => return Err(format!("unknown option {name}")),
            },
        }
    }
    Ok(options)
}

/// Runs a single case and tells of it.
fn single(run: &'static Run, seed: u64) -> ExitCode {
    let mut seen = Seen::default();
    let differences = run.one(seed, &mut Both::new(true), &mut seen);
    for situation in seen.situations() {
        println!("met: {situation}");
    }
    if differences.is_empty() {
        println!("{} {seed}: no difference", run.name);
        return ExitCode::SUCCESS;
    }
    println!("{} {seed} differs:", run.name);
    println!("{}", differences.join("\n"));
    ExitCode::FAILURE
}

/// The share of a run.
fn share(run: &'static Run, options: &Options, both: &mut Both, seen: &mut Seen) {
    let mut failed = 0;
    for number in 0..options.cases * run.share / 100 {
        let seed = run.seed(options.seed, number);
        let differences = run.one(seed, both, seen);
        seen.cases += 1;
        let Some(first) = differences.first() else {
            continue;
        };
        failed += 1;
        if failed <= SHOWN {
            println!("case --{} {seed} differs: {first}", run.name);
        }
    }
    seen.failed += failed;
}

fn main() -> ExitCode {
    let options = match options() {
        Ok(options) => options,
        Err(message) => {
            eprintln!("{message}");
            return ExitCode::from(2);
        }
    };
    crash::watch();
    if let Some((run, seed)) = options.single {
        return single(run, seed);
    }
    println!("seed {}, {} cases", options.seed, options.cases);
    let start = Instant::now();
    let (mut both, mut seen) = (Both::new(false), Seen::default());
    for run in RUNS {
        share(run, &options, &mut both, &mut seen);
    }
    RUNS.iter().for_each(|run| seen.print(run));
    println!(
        "{} cases in {:.1} s, {} differ",
        seen.cases,
        start.elapsed().as_secs_f64(),
        seen.failed
    );
    let missing: Vec<String> = RUNS.iter().flat_map(|run| seen.missing(run)).collect();
    if options.cases >= ENOUGH && !missing.is_empty() {
        println!("never seen: {}", missing.join(", "));
        return ExitCode::FAILURE;
    }
    match seen.failed {
        0 => ExitCode::SUCCESS,
        _ => ExitCode::FAILURE,
    }
}
