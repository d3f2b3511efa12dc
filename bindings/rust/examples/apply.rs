//! The example batch of document 01, "The printed line", through apply, find and reconcile. What the program prints is in expected.txt.

use fantanolive::{apply, find, has_code, reconcile, Refusal, RECORD, ROW};

#[path = "../tests/text/mod.rs"]
mod text;
use text::{ebcdic, paper_batch};

/// EBCDIC bytes as text; a full stop for a byte that is no capital letter, digit, space, hyphen or comma.
fn ascii(bytes: &[u8]) -> String {
    let set = " ABCDEFGHIJKLMNOPQRSTUVWXYZ0123456789-,";
    let codes = ebcdic(set);
    let text = |b: &u8| {
        codes
            .iter()
            .position(|code| code == b)
            .map_or('.', |i| set.as_bytes()[i] as char)
    };
    bytes.iter().map(text).collect()
}

/// Prints the columns first to last of a record.
fn show(name: &str, record: &[u8], first: usize, last: usize) {
    println!("  {name} [{}]", ascii(&record[first - 1..last]));
}

fn show_verdict(detail: usize, verdict: u64) {
    let codes: String = (0..64)
        .filter(|&code| has_code(verdict, code))
        .map(|code| format!(" {code:02}"))
        .collect();
    println!(
        "detail {detail}:{}",
        if codes.is_empty() {
            " no codes"
        } else {
            &codes
        }
    );
}

/// A reject record (Chart 0-1).
fn show_reject(number: usize, record: &[u8]) {
    println!("reject record {number}");
    show("SSN", record, 6, 14);
    show("last name", record, 30, 49);
    show("arrearage", record, 65, 72);
    show("type", record, 73, 73);
    show("case type", record, 74, 74);
    show("codes", record, 228, 239);
    show("stored name", record, 240, 243);
}

/// The control record of the reject file (Chart 0-2).
fn show_reject_control(record: &[u8]) {
    println!("reject control record");
    show("state", record, 1, 2);
    show("TANF accepted", record, 6, 14);
    show("TANF rejected", record, 15, 23);
    show("Non-TANF accepted", record, 24, 32);
    show("Non-TANF rejected", record, 33, 41);
    show("TANF warned", record, 42, 50);
    show("Non-TANF warned", record, 51, 59);
}

/// A record of the reconciliation file (Chart 0-6).
fn show_rec(number: usize, record: &[u8]) {
    println!("REC record {number}");
    show("state", record, 4, 5);
    show("local code", record, 6, 8);
    show("SSN", record, 9, 17);
    show("case ID", record, 18, 32);
    show("last name", record, 33, 52);
    show("first name", record, 53, 62);
    show("arrearage", record, 63, 70);
    show("case type", record, 71, 71);
    show("date issued", record, 72, 79);
    show("exclusions", record, 82, 105);
}

/// The control record of the reconciliation file (Chart 0-7).
fn show_rct(record: &[u8]) {
    println!("RCT record");
    show("state", record, 4, 5);
    show("TANF", record, 6, 14);
    show("Non-TANF", record, 15, 23);
    show("total", record, 24, 32);
    show("date", record, 33, 40);
}

fn main() -> Result<(), Refusal> {
    // Apply the batch to an empty master with space for four rows, with an empty list of local codes.
    let batch = paper_batch();
    let mut master = [0; 4 * ROW];
    let mut verdicts = [0; 2];
    let mut rejects = [0; 3 * RECORD];
    let counts = apply(
        &mut master,
        0,
        &batch,
        &[],
        2007,
        &mut verdicts,
        &mut rejects,
    )?;
    println!(
        "OH accepted {} rejected {} warned {} neither {} rows {}",
        counts.accepted, counts.rejected, counts.warned, counts.neither, counts.rows
    );
    let rows = counts.rows as usize;

    // The verdicts, then the reject file: a record per detail with a code, and the control record.
    for (detail, &verdict) in verdicts.iter().enumerate() {
        show_verdict(detail + 1, verdict);
    }
    let rejected = verdicts.iter().filter(|&&verdict| verdict != 0).count();
    for (number, record) in rejects.chunks(RECORD).take(rejected).enumerate() {
        show_reject(number + 1, record);
    }
    show_reject_control(&rejects[rejected * RECORD..][..RECORD]);

    // Find the case.
    let place = find(&master, rows, &ebcdic("OH123456789N"))?;
    println!("key OH123456789N: place {place}");

    // Write the reconciliation file.
    let mut out = [0; 5 * RECORD];
    let records = reconcile(&master, rows, &ebcdic("OH"), &ebcdic("20071231"), &mut out)? as usize;
    println!("reconciliation: records {records}");
    for (number, record) in out.chunks(RECORD).take(records).enumerate() {
        show_rec(number + 1, record);
    }
    show_rct(&out[records * RECORD..][..RECORD]);

    // The same batch again, with a verdict list that is too short: refused, and nothing is written.
    let before = (master, verdicts, rejects);
    let refusal = apply(
        &mut master,
        rows,
        &batch,
        &[],
        2007,
        &mut verdicts[..1],
        &mut rejects,
    )
    .expect_err("the verdict list is too short");
    let written = if (master, verdicts, rejects) == before {
        "nothing"
    } else {
        "something"
    };
    println!(
        "verdict list of 1 for 2 details: refused {}, {written} written",
        refusal.number()
    );
    Ok(())
}
