//! The calls over slices, with a `Result`.

use crate::header::Refusal;
use crate::raw;
use crate::refusal::{done, NotConverted};

/// The five numbers of a batch that was applied.
#[derive(Clone, Copy, Debug, PartialEq, Eq)]
pub struct Counts {
    /// Details of case type A or N without an error, warned ones included.
    pub accepted: u64,
    /// Details of case type A or N with an error.
    pub rejected: u64,
    /// Details with a warning; they are among the accepted.
    pub warned: u64,
    /// Details of neither case type; they are in none of the three above.
    pub neither: u64,
    /// Rows of the master afterwards, deleted ones included.
    pub rows: u64,
}

/// The four totals of a batch's details: those that a control record states, in its order.
#[derive(Clone, Copy, Debug, PartialEq, Eq)]
pub struct Totals {
    /// Details of case type A.
    pub tanf_count: u64,
    /// Details of case type N.
    pub non_tanf_count: u64,
    /// Dollars of the details of case type A and type A or M, where they are eight digits.
    pub tanf_amount: u64,
    /// The same of case type N.
    pub non_tanf_amount: u64,
}

/// The two numbers of a contact file that was read.
#[derive(Clone, Copy, Debug, PartialEq, Eq)]
pub struct ContactCounts {
    /// Records of the table afterwards.
    pub contacts: u64,
    /// Faulty records of the file, whose numbers are in the list.
    pub faulty: u64,
}

/// Applies a batch to a master.
///
/// `master` has `rows` rows of 200 bytes at entry, and behind them the space for new ones. `batch` has the details and then
/// the control record, 245 bytes each. `locals` is the list of local codes, `year` the process year. `verdicts` takes a
/// number per detail (see [`crate::codes`]), `rejects` the reject file, at least 245 × (details + 1) bytes.
///
/// Bytes behind the last row, verdict and reject record are kept.
///
/// # Errors
///
/// Refusals 1 to 6, 20, 21 and 7 to 11, the first that holds in this order; every buffer is then as before.
pub fn apply(
    master: &mut [u8],
    rows: usize,
    batch: &[u8],
    locals: &[u8],
    year: u64,
    verdicts: &mut [u64],
    rejects: &mut [u8],
) -> Result<Counts, Refusal> {
    let mut result = [0; 5];
    done(raw::apply(
        master,
        rows,
        batch,
        locals,
        year,
        verdicts,
        rejects,
        &mut result,
    ))?;
    let [accepted, rejected, warned, neither, rows] = result;
    Ok(Counts {
        accepted,
        rejected,
        warned,
        neither,
        rows,
    })
}

/// Applies a batch to a master as [`apply`] does, and writes a journal with which [`take_back`] takes it back. Answers the
/// counts and how many bytes the journal has; it stands at the front of `journal`, and the bytes behind it are kept.
///
/// `journal` has at least 12 + 205 × details bytes ([`crate::journal_size`]).
///
/// # Errors
///
/// Those of [`apply`], then refusal 25; every buffer is then as before.
#[allow(clippy::too_many_arguments)]
pub fn apply_journaled(
    master: &mut [u8],
    rows: usize,
    batch: &[u8],
    locals: &[u8],
    year: u64,
    verdicts: &mut [u64],
    rejects: &mut [u8],
    journal: &mut [u8],
) -> Result<(Counts, u64), Refusal> {
    let mut result = [0; 6];
    done(raw::apply_journaled(
        master,
        rows,
        batch,
        locals,
        year,
        verdicts,
        rejects,
        journal,
        &mut result,
    ))?;
    let [accepted, rejected, warned, neither, rows, journal] = result;
    let counts = Counts {
        accepted,
        rejected,
        warned,
        neither,
        rows,
    };
    Ok((counts, journal))
}

/// Takes a batch back with its journal, from the `rows` rows that it left, and answers how many rows the master has then: row
/// count and rows are those from before the batch, and the bytes behind them are kept.
///
/// `journal` is exactly the bytes that [`apply_journaled`] wrote.
///
/// # Errors
///
/// Refusals 3, 4 and 26, the first that holds; `master` is then as before.
pub fn take_back(master: &mut [u8], rows: usize, journal: &[u8]) -> Result<u64, Refusal> {
    let mut rows_after = 0;
    done(raw::take_back(master, rows, journal, &mut rows_after))?;
    Ok(rows_after)
}

/// Adds up the totals of a batch's details: all records but the last, whatever that says. With them its control record has
/// neither refusal 7 nor 8.
///
/// # Errors
///
/// Refusal 5.
pub fn totals(batch: &[u8]) -> Result<Totals, Refusal> {
    let mut totals = [0; 4];
    done(raw::totals(batch, &mut totals))?;
    let [tanf_count, non_tanf_count, tanf_amount, non_tanf_amount] = totals;
    Ok(Totals {
        tanf_count,
        non_tanf_count,
        tanf_amount,
        non_tanf_amount,
    })
}

/// Merges two batches of one state into one and answers how many records it has: the first's details, the second's, and a
/// control record with the sums of their totals.
///
/// `out` takes at least `first.len() + second.len() - 245` bytes; bytes behind the merged batch are kept.
///
/// # Errors
///
/// Refusals 5, 6, 20, 21, 7 and 8 of the first batch, then of the second, then 32 and 33, the first that holds in this
/// order; `out` is then as before.
pub fn merge(first: &[u8], second: &[u8], out: &mut [u8]) -> Result<u64, Refusal> {
    let mut records = 0;
    done(raw::merge(first, second, out, &mut records))?;
    Ok(records)
}

/// Finds the row of a key, deleted or not, and answers its place, the first being 0.
///
/// `master` has `rows` rows of 200 bytes; `key` is state, SSN and case type, twelve bytes.
///
/// # Errors
///
/// Refusals 3, 4, 14 and 15, the first that holds.
pub fn find(master: &[u8], rows: usize, key: &[u8]) -> Result<u64, Refusal> {
    let mut place = 0;
    done(raw::find(master, rows, key, &mut place))?;
    Ok(place)
}

/// Finds the rows of many keys, deleted or not, in one walk, and answers how many comparisons of a key with a row it made, at
/// most rows plus keys.
///
/// `master` has `rows` rows of 200 bytes; `keys` has the keys, twelve bytes each, strictly rising. `places` takes at least one
/// number per key: the place of its row, the first being 0, or [`crate::NO_PLACE`]. Numbers behind the last key's are kept.
///
/// # Errors
///
/// Refusals 3, 4, 27 and 28, the first that holds; `places` is then as before.
pub fn find_many(
    master: &[u8],
    rows: usize,
    keys: &[u8],
    places: &mut [u32],
) -> Result<u64, Refusal> {
    let mut comparisons = 0;
    done(raw::find_many(master, rows, keys, places, &mut comparisons))?;
    Ok(comparisons)
}

/// Writes the reconciliation file of a state and answers the number of its REC records.
///
/// `master` has `rows` rows of 200 bytes; `state` has two bytes, `date` eight (CCYYMMDD). `out` takes a REC record per live
/// row of the state and then the RCT record, 245 bytes each; bytes behind them are kept. 245 × (rows + 1) bytes are always
/// enough.
///
/// # Errors
///
/// Refusals 3, 4, 12, 13 and 11, the first that holds in this order; `out` is then as before.
pub fn reconcile(
    master: &[u8],
    rows: usize,
    state: &[u8],
    date: &[u8],
    out: &mut [u8],
) -> Result<u64, Refusal> {
    let mut records = 0;
    done(raw::reconcile(master, rows, state, date, out, &mut records))?;
    Ok(records)
}

/// Prints the live rows of a master, whatever their state, in key order, and answers the number of pages.
///
/// `master` has `rows` rows of 200 bytes. `out` takes the pages one behind the other, in EBCDIC, lines of 132 bytes without line
/// ends: a heading, 58 lines for rows (on the last page perhaps fewer) and a foot; bytes behind them are kept.
/// [`crate::pages_size`] of the rows is always enough.
///
/// # Errors
///
/// Refusals 3, 4 and 31, the first that holds; `out` is then as before.
pub fn pages(master: &[u8], rows: usize, out: &mut [u8]) -> Result<u64, Refusal> {
    let mut pages = 0;
    done(raw::pages(master, rows, out, &mut pages))?;
    Ok(pages)
}

/// Gives the rows of a master from before the cents 00 cents. It is to be called once; a master with rows that have cents is
/// refused (4).
///
/// # Errors
///
/// Refusals 3 and 4 over rows without cents, the first that holds; `master` is then as before.
pub fn add_cents(master: &mut [u8], rows: usize) -> Result<(), Refusal> {
    done(raw::add_cents(master, rows))
}

/// Posts a weekly collection file to a master, line by line in file order, and answers how many lines were not posted: their
/// numbers, the first line being 1, are at the front of `lines`.
///
/// `file` has the lines and then the last record, 240 bytes each. `lines` takes at least one number per line.
///
/// # Errors
///
/// Refusals 3, 4, 22, 23 and 24, the first that holds; every buffer is then as before.
pub fn post(
    master: &mut [u8],
    rows: usize,
    file: &[u8],
    lines: &mut [u32],
) -> Result<u64, Refusal> {
    let mut listed = 0;
    done(raw::post(master, rows, file, lines, &mut listed))?;
    Ok(listed)
}

fn converted(answer: u64, place: u64) -> Result<(), NotConverted> {
    match done(answer) {
        Ok(()) => Ok(()),
        Err(Refusal::NoCounterpart) => Err(NotConverted::NoCounterpart { place }),
        Err(_) => Err(NotConverted::ShortFile),
    }
}

/// Turns a file from ASCII into EBCDIC. `out` is at least as long as `input`; bytes behind that length are kept.
///
/// # Errors
///
/// Refusals 16, with its place, and 17, the first that holds; `out` is then as before.
pub fn to_ebcdic(input: &[u8], out: &mut [u8]) -> Result<(), NotConverted> {
    let mut place = 0;
    let answer = raw::to_ebcdic(input, out, &mut place);
    converted(answer, place)
}

/// Turns a file from EBCDIC into ASCII; else as [`to_ebcdic`]. Masters are not to be converted.
///
/// # Errors
///
/// Refusals 16, with its place, and 17, the first that holds; `out` is then as before.
pub fn to_ascii(input: &[u8], out: &mut [u8]) -> Result<(), NotConverted> {
    let mut place = 0;
    let answer = raw::to_ascii(input, out, &mut place);
    converted(answer, place)
}

/// Reads a contact file into a table of contact records, 220 bytes each in rising order of columns 1–5.
///
/// `table` has `count` records at entry, and behind them the space for new ones. `faulty` takes at least one number per
/// record of `file`; the numbers of the faulty records, the first being 1, come to stand at its front. The call takes some
/// 270 kilobytes of stack.
///
/// # Errors
///
/// Refusals 18 and 19, the first that holds; every buffer is then as before.
pub fn contacts_update(
    table: &mut [u8],
    count: usize,
    file: &[u8],
    faulty: &mut [u32],
) -> Result<ContactCounts, Refusal> {
    let mut result = [0; 2];
    done(raw::contacts_update(
        table,
        count,
        file,
        faulty,
        &mut result,
    ))?;
    let [contacts, faulty] = result;
    Ok(ContactCounts { contacts, faulty })
}

/// Writes the local codes of a state, all but 000, three bytes each and rising, and answers how many they are. What it writes
/// is a list of local codes for [`apply`]. 3 × `count` bytes are always enough.
///
/// # Errors
///
/// Refusals 18, 12 and 19, the first that holds in this order; `out` is then as before.
pub fn contacts_codes(
    table: &[u8],
    count: usize,
    state: &[u8],
    out: &mut [u8],
) -> Result<u64, Refusal> {
    let mut codes = 0;
    done(raw::contacts_codes(table, count, state, out, &mut codes))?;
    Ok(codes)
}

/// Writes the C, L, R and M records, in this order, that lead from a row to a wanted row, and answers how many they are, 0 to
/// 4.
///
/// `row` and `wanted` have 200 bytes; `locals` is the list of local codes. `out` takes 245 bytes per record and has at least
/// [`crate::RECORDS`] bytes; those behind the records are kept. A batch of these records alone, under a control record of the
/// row's state, that [`apply`] carries out with the same list on a master that holds the row leaves the wanted row.
///
/// # Errors
///
/// Refusals 2, 4 (over the row, then over the wanted row), 29 and 30, the first that holds; `out` is then as before.
pub fn records_to(
    row: &[u8],
    wanted: &[u8],
    locals: &[u8],
    out: &mut [u8],
) -> Result<u64, Refusal> {
    let mut records = 0;
    done(raw::records_to(row, wanted, locals, out, &mut records))?;
    Ok(records)
}
