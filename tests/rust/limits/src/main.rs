//! The calls at the limit of 16,777,215 rows and records and one above, over buffers of gigabytes that
//! take little memory. Library and reference answer alike in every case. A word names the cases to run.

mod batches;
mod carried_out;
mod files;
mod full;
mod journal;
mod lengths;
mod masters;
mod memory;
mod merging;
mod pages;

use std::process::ExitCode;
use std::time::Instant;

use memory::Watch;

const STATE: [u8; 2] = [0xD6, 0xC8];
/// So many rows, details, contact records or lines there may be.
const MOST: usize = 16_777_215;
/// The memory that all of this may take, in MB.
const MOST_MEMORY: u64 = 2048;

const CASES: [(&str, fn()); 18] = [
    ("3: rows of every call over a master", masters::rows),
    ("5: records of a batch", batches::records),
    ("9: rows and A records", batches::rows_and_adds),
    ("10, 11 and 25: buffers of a batch", batches::buffers),
    ("18 and 19: a contact file", files::contact_refusals),
    ("22, 23 and 24: a collection file", files::posting_refusals),
    ("32 and 33: two batches", merging::refusals),
    (
        "totals of as many details as there can be",
        carried_out::totals,
    ),
    ("as many details applied", carried_out::details),
    ("as many contact records read", carried_out::contacts),
    ("as many lines posted", carried_out::lines),
    ("as many details merged", merging::carried_out),
    ("page numbers of six digits", pages::six_digits),
    (
        "a byte without a counterpart behind four billion",
        lengths::refused,
    ),
    ("four billion bytes converted", lengths::converted),
    ("a full master read", full::read),
    ("3 and 9 over a full master", full::refused),
    ("places of four groups in a journal", journal::four_groups),
];

/// The refusal of a call by the reference, 0 when carried out.
fn answer<T>(done: Result<T, u64>) -> u64 {
    done.err().unwrap_or(0)
}

fn main() -> ExitCode {
    let word = std::env::args()
        .nth(1)
        .filter(|word| !word.starts_with('-'));
    let (memory, start, mut most) = (Watch::start(), Instant::now(), 0);
    for (name, case) in CASES {
        if word.as_ref().is_some_and(|word| !name.contains(&word[..])) {
            continue;
        }
        let begun = Instant::now();
        case();
        let taken = memory.most();
        most = most.max(taken);
        println!(
            "{name:<52}{:>6.1} s {taken:>6} MB",
            begun.elapsed().as_secs_f64()
        );
    }
    println!(
        "limits: {:.0} s, at most {most} MB at once",
        start.elapsed().as_secs_f64()
    );
    if most > MOST_MEMORY {
        println!("limits: more than {MOST_MEMORY} MB");
        return ExitCode::FAILURE;
    }
    ExitCode::SUCCESS
}
