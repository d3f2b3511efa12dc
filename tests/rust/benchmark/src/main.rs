//! Times of the library, the reference and the speed engine, each also as a multiple of one
//! memcpy of 13,107,000 bytes measured in the same run; converting, reading contacts and posting
//! as multiples of one memcpy of the file or master; the later calls beside one memcpy too. `--quick` leaves out what is predicted to take
//! more than two seconds; `--once CASE ENGINE` makes one call and measures nothing; `--scale` measures every call at growing sizes
//! alone, with `--all` up to the limit, with `--huge` on huge pages, with another word only the calls with it in their name.

mod beside;
mod cases;
mod clock;
mod contacts;
mod convert;
mod input;
mod journal;
mod later;
mod many;
mod merge;
mod once;
mod pages;
mod posting;
mod scale;
mod totals;

use std::hint::black_box;
use std::time::{Duration, Instant, SystemTime, UNIX_EPOCH};

use fantanolive::raw;

use clock::seconds;
use contacts::{updating, Updates};
use convert::{converting, Conversions};
use input::{adds, changes, falling, lookup, renames, Input, MANY};
use posting::{posting, Postings};

const COPIED: usize = 13_107_000;
const ENGINES: usize = 3;
/// No measurement is started once a series has taken this long.
const PATIENCE: Duration = Duration::from_millis(1200);
const QUICK: f64 = 2.0;

type Times = [Option<f64>; ENGINES];

/// What apply writes.
#[derive(Clone, PartialEq)]
struct Buffers {
    master: Vec<u8>,
    verdicts: Vec<u64>,
    rejects: Vec<u8>,
    result: [u64; 5],
}

struct Bench {
    quick: bool,
    repetitions: usize,
    copies: Copies,
    /// Seconds per row moved, by engine, from the longest series of adds so far.
    rates: [f64; ENGINES],
}

/// The memcpy that all times are compared with, measured again beside every case.
struct Copies {
    from: Vec<u8>,
    to: Vec<u8>,
    times: Vec<f64>,
}

impl Copies {
    fn measure(&mut self) {
        for _ in 0..5 {
            let (from, to) = (&self.from[..], &mut self.to[..]);
            let time = seconds(|| black_box(to).copy_from_slice(black_box(from)));
            self.times.push(time);
        }
    }

    fn median(&self) -> f64 {
        median(&self.times)
    }
}

/// One line of the table, to be printed at the end.
struct Line {
    name: String,
    times: Times,
}

impl Buffers {
    fn fresh(input: &Input) -> Buffers {
        Buffers {
            master: input.master.clone(),
            verdicts: vec![1; input.details],
            rejects: vec![2; 245 * (input.details + 1)],
            result: [3; 5],
        }
    }
}

fn main() {
    let arguments: Vec<String> = std::env::args().skip(1).collect();
    if let [once, case, engine] = &arguments[..] {
        if once == "--once" {
            return once::once(case, engine);
        }
    }
    let has = |option: &str| arguments.iter().any(|argument| argument == option);
    let behind = |option: &str| {
        let at = arguments.iter().position(|argument| argument == option)?;
        arguments.get(at + 1)
    };
    if ["--scale", "--all", "--size"].into_iter().any(has) {
        let size = behind("--size");
        return scale::measure(&scale::Wanted {
            all: has("--all"),
            huge: has("--huge"),
            size: size.map(|size| size.parse().expect("--size takes a number")),
            word: arguments
                .iter()
                .find(|word| !word.starts_with('-') && Some(*word) != size)
                .cloned(),
        });
    }
    measure(has("--quick"));
}

fn measure(quick: bool) {
    let mut bench = Bench {
        quick,
        repetitions: if quick { 3 } else { 9 },
        copies: Copies {
            from: vec![0x5A; COPIED],
            to: vec![0xA5; COPIED],
            times: Vec::new(),
        },
        rates: [0.0; ENGINES],
    };
    let mut applied = Vec::new();
    for details in [100, 1000, 8192, 16_384, 32_768, 65_535] {
        let name = format!("65535 rows, {details} changes");
        applied.push(bench.line(&changes(&name, MANY, details)));
    }
    for count in [8192, 16_384, 32_768, 65_535] {
        let name = format!("no rows, {count} adds falling");
        applied.push(bench.line(&falling(&name, count)));
    }
    let name = "45875 rows, 19660 adds";
    applied.push(bench.line(&adds(name, 45_875, 19_660, false)));
    let name = "45875 rows, 65535 details, 19660 adds";
    applied.push(bench.line(&adds(name, 45_875, 19_660, true)));
    for input in cases::FURTHER {
        applied.push(bench.line(&input()));
    }
    let mut doubled = Vec::new();
    for count in [8192, 16_384, 32_768, 65_535] {
        doubled.push(bench.line(&changes(&format!("{count}"), count, count)));
    }
    let crowded = bench.crowded();
    let looked = [
        bench.finding(0),
        bench.finding(10),
        bench.finding(100),
        bench.reconciling(),
    ];
    let converted = converting(bench.repetitions);
    let updated = updating(bench.repetitions);
    let posted = posting(bench.repetitions);
    let later = later::measured(bench.repetitions);
    print(&bench, &applied, &doubled, &crowded, &looked);
    print_files(&converted, &updated, &posted);
    later::print(&later);
}

fn median(times: &[f64]) -> f64 {
    let mut times = times.to_vec();
    times.sort_by(f64::total_cmp);
    times[times.len() / 2]
}

fn run(engine: usize, input: &Input, buffers: &mut Buffers) {
    let Buffers {
        master,
        verdicts,
        rejects,
        result,
    } = buffers;
    let (rows, batch, list) = (input.rows, &input.batch, &input.list);
    let answer = match engine {
        0 => raw::apply(master, rows, batch, list, 2007, verdicts, rejects, result),
        1 => match reference::apply(master, rows, batch, list, 2007, verdicts, rejects) {
            Ok(counts) => {
                *result = [
                    counts.accepted,
                    counts.rejected,
                    counts.warned,
                    counts.neither,
                    counts.rows,
                ];
                0
            }
            Err(number) => number,
        },
        _ => match speed::apply(master, rows, batch, list, 2007, verdicts, rejects) {
            Ok(counts) => {
                *result = counts;
                0
            }
            Err(number) => number,
        },
    };
    assert_eq!(answer, 0, "{} was refused", input.name);
}

impl Bench {
    /// The median time of an engine, the buffers restored before each run.
    fn time(&self, engine: usize, input: &Input) -> (f64, Buffers) {
        let fresh = Buffers::fresh(input);
        let mut buffers = fresh.clone();
        let mut times = Vec::new();
        let begin = Instant::now();
        while times.len() < self.repetitions && (times.is_empty() || begin.elapsed() < PATIENCE) {
            buffers.master.copy_from_slice(&fresh.master);
            buffers.verdicts.copy_from_slice(&fresh.verdicts);
            buffers.rejects.copy_from_slice(&fresh.rejects);
            times.push(seconds(|| run(engine, input, black_box(&mut buffers))));
        }
        (median(&times), buffers)
    }

    fn times(&mut self, input: &Input) -> Times {
        let mut times = [None; ENGINES];
        let mut first: Option<Buffers> = None;
        self.copies.measure();
        for (engine, place) in times.iter_mut().enumerate() {
            let predicted = self.rates[engine] * input.moved;
            if self.quick && predicted > QUICK {
                continue;
            }
            let (time, buffers) = self.time(engine, input);
            *place = Some(time);
            if input.moved > 0.0 {
                self.rates[engine] = time / input.moved;
            }
            match &first {
                None => first = Some(buffers),
                Some(other) => assert!(*other == buffers, "the engines differ: {}", input.name),
            }
        }
        times
    }

    fn line(&mut self, input: &Input) -> Line {
        let times = self.times(input);
        let shown = times.map(|time| {
            time.map_or("left out".to_string(), |time| {
                format!("{:.2} ms", time * 1e3)
            })
        });
        eprintln!("measured {}: {}", input.name, shown.join(", "));
        Line {
            name: input.name.clone(),
            times,
        }
    }

    /// As many details under one key as on distinct keys, the latter first.
    fn crowded(&mut self) -> Vec<Line> {
        let name = format!("{MANY} details on distinct keys");
        let mut lines = vec![self.line(&changes(&name, MANY, MANY))];
        for (given, name) in [
            (true, "of one key, M with names of Bs"),
            (false, "of one key, M with other names"),
        ] {
            let name = format!("{MANY} {name}");
            lines.push(self.line(&renames(&name, MANY, MANY, given)));
        }
        lines
    }

    /// Finding, per call, with a share of other names.
    fn finding(&mut self, share: usize) -> Line {
        let (mut master, keys, _) = lookup(if self.quick { 100 } else { 1000 });
        cases::rename(&mut master, share);
        let mut times = [Vec::new(), Vec::new(), Vec::new()];
        for (at, key) in keys.iter().enumerate() {
            let (mut place, mut answer) = (0, 0);
            times[0].push(seconds(|| {
                answer = raw::find(black_box(&master), MANY, key, &mut place);
            }));
            assert_eq!(answer, 0, "find was refused");
            let mut found = Err(0);
            times[2].push(seconds(|| {
                found = speed::find(black_box(&master), MANY, key);
            }));
            assert_eq!(found, Ok(place), "find differs");
            // The reference is slow: a part of the keys is enough.
            if at < 40 {
                let mut found = Err(0);
                times[1].push(seconds(|| {
                    found = reference::find(black_box(&master), MANY, key);
                }));
                assert_eq!(found, Ok(place), "find differs");
            }
        }
        Line {
            name: format!("find ({} keys), {share} % other names", keys.len()),
            times: times.map(|times| Some(median(&times))),
        }
    }

    fn reconciling(&mut self) -> Line {
        let (master, _, state) = lookup(0);
        let date = generator::text::text("20261115");
        let mut one = vec![1; 245 * (MANY + 1)];
        let mut two = one.clone();
        let mut three = one.clone();
        let mut times = [Vec::new(), Vec::new(), Vec::new()];
        for _ in 0..self.repetitions {
            one.fill(1);
            two.fill(1);
            three.fill(1);
            let mut records = 0;
            times[0].push(seconds(|| {
                raw::reconcile(
                    black_box(&master),
                    MANY,
                    &state,
                    &date,
                    &mut one,
                    &mut records,
                );
            }));
            let mut written = Err(0);
            times[1].push(seconds(|| {
                written = reference::reconcile(black_box(&master), MANY, &state, &date, &mut two);
            }));
            assert!(written == Ok(records) && one == two, "reconcile differs");
            times[2].push(seconds(|| {
                written = speed::reconcile(black_box(&master), MANY, &state, &date, &mut three);
            }));
            assert!(written == Ok(records) && one == three, "reconcile differs");
        }
        Line {
            name: format!("reconcile, {MANY} records"),
            times: times.map(|times| Some(median(&times))),
        }
    }
}

/// A time, and how many copies it is.
fn cell(time: Option<f64>, copy: f64) -> String {
    match time {
        Some(time) => format!("{:>9.2} ms {:>7.1}x", time * 1e3, time / copy),
        None => "left out".to_string(),
    }
}

fn print(bench: &Bench, applied: &[Line], doubled: &[Line], crowded: &[Line], looked: &[Line]) {
    let copy = bench.copies.median();
    let copies = bench.copies.times.len();
    println!("machine: {}", machine());
    println!("date: {}", date());
    println!("times are medians of the thread's processor time");
    println!(
        "one memcpy of {COPIED} bytes: {:.2} ms ({copies} times, over the whole run); x counts such copies",
        copy * 1e3
    );
    println!();
    print_lines("apply", applied, copy);
    println!();
    println!(
        "{:<40}{:>22}{:>22}{:>22}",
        "doubling: n rows, n changes", "library", "reference", "speed engine"
    );
    for (at, line) in doubled.iter().enumerate() {
        print_beside(line, at.checked_sub(1).map(|at| &doubled[at]), ENGINES);
    }
    println!();
    println!(
        "{:<40}{:>22}{:>22}{:>22}",
        "half B, half M, beside distinct keys", "library", "reference", "speed engine"
    );
    for (at, line) in crowded.iter().enumerate() {
        print_beside(line, (at > 0).then_some(&crowded[0]), ENGINES);
    }
    println!();
    print_lines("65535 rows", looked, copy);
}

/// Lines of all engines under a heading.
fn print_lines(heading: &str, lines: &[Line], copy: f64) {
    println!(
        "{heading:<40}{:>22}{:>22}{:>22}{:>11}",
        "library", "reference", "speed engine", "lib/speed"
    );
    for line in lines {
        print_engines(line, copy);
    }
}

/// A line with the times of the three engines, and the library's as a multiple of the speed engine's.
fn print_engines(line: &Line, copy: f64) {
    let ratio = match line.times {
        [Some(library), _, Some(speed)] => format!("{:.2}", library / speed),
        _ => String::new(),
    };
    let [library, reference, speed] = line.times.map(|time| cell(time, copy));
    println!(
        "{:<40}{library:>22}{reference:>22}{speed:>22}{ratio:>11}",
        line.name
    );
}

/// The calls over other files than a master and a batch.
fn print_files(converted: &Conversions, updated: &Updates, posted: &Postings) {
    println!();
    converted.print();
    println!();
    updated.print();
    println!();
    posted.print();
}

/// A line with the times of the first engines, as multiples of another line's.
fn print_beside(line: &Line, other: Option<&Line>, engines: usize) {
    let others = other.map_or([None; ENGINES], |other| other.times);
    let pairs = line.times.iter().zip(others).take(engines);
    let cells: Vec<String> = pairs
        .map(|(time, other)| match (time, other) {
            (Some(time), Some(other)) => {
                format!("{:>9.2} ms   x {:.2}", time * 1e3, time / other)
            }
            (Some(time), None) => format!("{:>9.2} ms         ", time * 1e3),
            _ => "left out".to_string(),
        })
        .map(|cell| format!("{cell:>22}"))
        .collect();
    println!("{:<40}{}", line.name, cells.concat());
}

fn machine() -> String {
    let info = std::fs::read_to_string("/proc/cpuinfo").unwrap_or_default();
    info.lines()
        .find(|line| line.starts_with("model name"))
        .and_then(|line| line.split(':').nth(1))
        .map_or("unknown".to_string(), |name| name.trim().to_string())
}

/// Today's date (UTC) by the clock.
fn date() -> String {
    let seconds = SystemTime::now()
        .duration_since(UNIX_EPOCH)
        .map_or(0, |since| since.as_secs());
    let mut days = seconds / 86_400;
    let leap = |year: u64| {
        year.is_multiple_of(4) && (!year.is_multiple_of(100) || year.is_multiple_of(400))
    };
    let mut year = 1970;
    while days >= 365 + u64::from(leap(year)) {
        days -= 365 + u64::from(leap(year));
        year += 1;
    }
    let february = 28 + u64::from(leap(year));
    let months = [31, february, 31, 30, 31, 30, 31, 31, 30, 31, 30, 31];
    let mut month = 0;
    while days >= months[month] {
        days -= months[month];
        month += 1;
    }
    format!("{year}-{:02}-{:02}", month + 1, days + 1)
}
