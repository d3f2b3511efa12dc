//! The calls over whole files: what a call takes is read alone, and what it writes comes back in vectors of its own.
//!
//! A master and a table are just their rows and records here, with no space behind them. The functions of the crate's root do
//! the same in buffers that are lent, without a copy; a master of millions of rows is better lent.
//!
//! ```
//! use fantanolive::layouts::{Control, Detail, Row};
//! use fantanolive::{owned, Record};
//!
//! # fn main() -> Result<(), Box<dyn std::error::Error>> {
//! let mut case = Detail {
//!     state: "OH".into(),
//!     ssn: "123456789".into(),
//!     last_name: "SMITH".into(),
//!     first_name: "JOHN".into(),
//!     transaction_type: "A".into(),
//!     case_type: "N".into(),
//!     ..Detail::default()
//! };
//! case.set_arrearage_number(25)?;
//! let batch = owned::batch("OH", &[case])?;
//! let applied = owned::apply(&[], &batch, &[], 2007)?;
//! assert_eq!((applied.counts.accepted, applied.counts.rows), (1, 1));
//! let row = Row::read(&applied.master).ok_or("no row")?;
//! assert_eq!(row.last_name, "SMITH");
//! # Ok(())
//! # }
//! ```

use crate::calls::{self, ContactCounts, Counts, Totals};
use crate::fields::{Record, Unfit};
use crate::header::{
    journal_size, pages_size, Refusal, CONTACT, KEY, LINE, LOCAL_CODE, RECORD, RECORDS, ROW,
};
use crate::layouts::{Control, Detail};
use crate::refusal::NotConverted;

/// The place of a detail's type in its record, and an A in EBCDIC.
const TYPE: usize = 72;
const A: u8 = 0xC1;

/// The place of a row's status in it, and a space in EBCDIC.
const STATUS: usize = 195;
const LIVE: u8 = 0x40;

/// What a batch leaves.
#[derive(Clone, Debug, PartialEq, Eq)]
pub struct Applied {
    /// The new master.
    pub master: Vec<u8>,
    /// A verdict per detail ([`crate::codes`]).
    pub verdicts: Vec<u64>,
    /// The reject file.
    pub rejects: Vec<u8>,
    /// The counts.
    pub counts: Counts,
}

/// What a batch leaves with a journal.
#[derive(Clone, Debug, PartialEq, Eq)]
pub struct Journaled {
    /// What it leaves without one.
    pub applied: Applied,
    /// The journal, for [`take_back`].
    pub journal: Vec<u8>,
}

/// What posting a collection file leaves.
#[derive(Clone, Debug, PartialEq, Eq)]
pub struct Posted {
    /// The new master.
    pub master: Vec<u8>,
    /// The numbers of the lines that were not posted, the first line being 1.
    pub listed: Vec<u32>,
}

/// What reading a contact file leaves.
#[derive(Clone, Debug, PartialEq, Eq)]
pub struct Updated {
    /// The new table.
    pub table: Vec<u8>,
    /// The numbers of the faulty records, the first record being 1.
    pub faulty: Vec<u32>,
}

/// What a walk for many keys finds.
#[derive(Clone, Debug, PartialEq, Eq)]
pub struct FoundMany {
    /// The place of each key's row, the first being 0; none where no row has it.
    pub places: Vec<Option<u32>>,
    /// How many comparisons of a key with a row were made.
    pub comparisons: u64,
}

/// A file's blocks of a width, a rest left out.
fn blocks(file: &[u8], width: usize) -> usize {
    file.len() / width
}

/// The buffers that a batch is applied in.
struct Lent {
    master: Vec<u8>,
    rows: usize,
    verdicts: Vec<u64>,
    rejects: Vec<u8>,
}

impl Lent {
    fn new(master: &[u8], batch: &[u8]) -> Lent {
        let details = blocks(batch, RECORD).saturating_sub(1);
        let types = batch.iter().skip(TYPE).step_by(RECORD).take(details);
        let adds = types.filter(|&&kind| kind == A).count();
        let mut space = Vec::with_capacity(master.len() + ROW * adds);
        space.extend_from_slice(master);
        space.resize(master.len() + ROW * adds, 0);
        Lent {
            master: space,
            rows: blocks(master, ROW),
            verdicts: vec![0; details],
            rejects: vec![0; RECORD * (details + 1)],
        }
    }

    fn left(mut self, counts: Counts) -> Applied {
        let rejected = self.verdicts.iter().filter(|&&verdict| verdict != 0);
        self.rejects.truncate(RECORD * (rejected.count() + 1));
        self.master.truncate(ROW * size(counts.rows));
        Applied {
            master: self.master,
            verdicts: self.verdicts,
            rejects: self.rejects,
            counts,
        }
    }
}

/// A number of the library, which is never above the length of a buffer.
fn size(number: u64) -> usize {
    usize::try_from(number).unwrap_or(usize::MAX)
}

/// Makes a batch of details: their records, and a control record of the state with their totals.
///
/// # Errors
///
/// A field that doesn't fit its columns, totals of more digits than a control record has, or more details than a batch.
pub fn batch(state: &str, details: &[Detail]) -> Result<Vec<u8>, Unfit> {
    let mut batch = Vec::with_capacity(RECORD * (details.len() + 1));
    for detail in details {
        batch.extend(detail.write()?);
    }
    let mut control = Control {
        state: state.to_string(),
        mark: "CTL".to_string(),
        ..Control::default()
    };
    let end = batch.len();
    batch.extend(control.write()?);
    let too_many = Unfit {
        field: "batch",
        width: RECORD,
    };
    let totals: Totals = calls::totals(&batch).map_err(|_| too_many)?;
    control.set_tanf_records_number(totals.tanf_count)?;
    control.set_non_tanf_records_number(totals.non_tanf_count)?;
    control.set_tanf_amount_number(totals.tanf_amount)?;
    control.set_non_tanf_amount_number(totals.non_tanf_amount)?;
    batch.truncate(end);
    batch.extend(control.write()?);
    Ok(batch)
}

/// Applies a batch to a master: [`crate::apply`].
///
/// # Errors
///
/// Refusals 1 to 6, 20, 21, 7, 8 and 9.
pub fn apply(master: &[u8], batch: &[u8], locals: &[u8], year: u64) -> Result<Applied, Refusal> {
    let mut lent = Lent::new(master, batch);
    let counts = calls::apply(
        &mut lent.master,
        lent.rows,
        batch,
        locals,
        year,
        &mut lent.verdicts,
        &mut lent.rejects,
    )?;
    Ok(lent.left(counts))
}

/// Applies a batch to a master with a journal: [`crate::apply_journaled`].
///
/// # Errors
///
/// Those of [`apply`].
pub fn apply_journaled(
    master: &[u8],
    batch: &[u8],
    locals: &[u8],
    year: u64,
) -> Result<Journaled, Refusal> {
    let mut lent = Lent::new(master, batch);
    let mut journal = vec![0; journal_size(lent.verdicts.len())];
    let (counts, length) = calls::apply_journaled(
        &mut lent.master,
        lent.rows,
        batch,
        locals,
        year,
        &mut lent.verdicts,
        &mut lent.rejects,
        &mut journal,
    )?;
    journal.truncate(size(length));
    journal.shrink_to_fit();
    Ok(Journaled {
        applied: lent.left(counts),
        journal,
    })
}

/// The master from before a batch, from the one that it left and its journal: [`crate::take_back`].
///
/// # Errors
///
/// Refusals 3, 4 and 26.
pub fn take_back(master: &[u8], journal: &[u8]) -> Result<Vec<u8>, Refusal> {
    let mut master = master.to_vec();
    let rows = blocks(&master, ROW);
    let before = calls::take_back(&mut master, rows, journal)?;
    master.truncate(ROW * size(before));
    Ok(master)
}

/// Two batches of one state merged into one: [`crate::merge`].
///
/// # Errors
///
/// Refusals 5, 6, 20, 21, 7 and 8 of either batch, and 32.
pub fn merge(first: &[u8], second: &[u8]) -> Result<Vec<u8>, Refusal> {
    let mut out = vec![0; first.len() + second.len()];
    let records = calls::merge(first, second, &mut out)?;
    out.truncate(RECORD * size(records));
    Ok(out)
}

/// Finds the row of a key and answers its place, the first being 0: [`crate::find`].
///
/// # Errors
///
/// Refusals 3, 4, 14 and 15.
pub fn find(master: &[u8], key: &[u8]) -> Result<u64, Refusal> {
    calls::find(master, blocks(master, ROW), key)
}

/// Finds the rows of many keys, twelve bytes each and strictly rising: [`crate::find_many`].
///
/// # Errors
///
/// Refusals 3, 4 and 27.
pub fn find_many(master: &[u8], keys: &[u8]) -> Result<FoundMany, Refusal> {
    let mut places = vec![0; blocks(keys, KEY)];
    let comparisons = calls::find_many(master, blocks(master, ROW), keys, &mut places)?;
    let found = |place| (place != crate::NO_PLACE).then_some(place);
    Ok(FoundMany {
        places: places.into_iter().map(found).collect(),
        comparisons,
    })
}

/// The reconciliation file of a state: [`crate::reconcile`].
///
/// # Errors
///
/// Refusals 3, 4, 12 and 13.
pub fn reconcile(master: &[u8], state: &[u8], date: &[u8]) -> Result<Vec<u8>, Refusal> {
    let rows = blocks(master, ROW);
    let mut out = vec![0; RECORD * (rows + 1)];
    let records = calls::reconcile(master, rows, state, date, &mut out)?;
    out.truncate(RECORD * (size(records) + 1));
    Ok(out)
}

/// The case pages of a master: [`crate::pages`].
///
/// # Errors
///
/// Refusals 3 and 4.
pub fn pages(master: &[u8]) -> Result<Vec<u8>, Refusal> {
    let rows = blocks(master, ROW);
    let statuses = master.iter().skip(STATUS).step_by(ROW);
    let live = statuses.filter(|&&status| status == LIVE).count();
    let mut out = vec![0; pages_size(live)];
    calls::pages(master, rows, &mut out)?;
    Ok(out)
}

/// A master that has no cents yet with 00 cents in every row: [`crate::add_cents`].
///
/// # Errors
///
/// Refusals 3 and 4.
pub fn add_cents(master: &[u8]) -> Result<Vec<u8>, Refusal> {
    let mut master = master.to_vec();
    let rows = blocks(&master, ROW);
    calls::add_cents(&mut master, rows)?;
    Ok(master)
}

/// Posts a weekly collection file: [`crate::post`].
///
/// # Errors
///
/// Refusals 3, 4, 22 and 23.
pub fn post(master: &[u8], file: &[u8]) -> Result<Posted, Refusal> {
    let mut master = master.to_vec();
    let rows = blocks(&master, ROW);
    let mut listed = vec![0; blocks(file, LINE).saturating_sub(1)];
    let count = calls::post(&mut master, rows, file, &mut listed)?;
    listed.truncate(size(count));
    Ok(Posted { master, listed })
}

/// A file turned from ASCII into EBCDIC: [`crate::to_ebcdic`].
///
/// # Errors
///
/// Refusal 16, with the place of the byte.
pub fn to_ebcdic(file: &[u8]) -> Result<Vec<u8>, NotConverted> {
    let mut out = vec![0; file.len()];
    calls::to_ebcdic(file, &mut out)?;
    Ok(out)
}

/// A file turned from EBCDIC into ASCII: [`crate::to_ascii`].
///
/// # Errors
///
/// Refusal 16, with the place of the byte.
pub fn to_ascii(file: &[u8]) -> Result<Vec<u8>, NotConverted> {
    let mut out = vec![0; file.len()];
    calls::to_ascii(file, &mut out)?;
    Ok(out)
}

/// Reads a contact file into a table: [`crate::contacts_update`].
///
/// # Errors
///
/// Refusal 18.
pub fn contacts_update(table: &[u8], file: &[u8]) -> Result<Updated, Refusal> {
    let (count, records) = (blocks(table, CONTACT), blocks(file, CONTACT));
    let mut space = table.to_vec();
    space.resize(table.len() + CONTACT * records, 0);
    let mut faulty = vec![0; records];
    let counts: ContactCounts = calls::contacts_update(&mut space, count, file, &mut faulty)?;
    space.truncate(CONTACT * size(counts.contacts));
    faulty.truncate(size(counts.faulty));
    Ok(Updated {
        table: space,
        faulty,
    })
}

/// The local codes of a state, all but 000: a list as [`apply`] takes it. See [`crate::contacts_codes`].
///
/// # Errors
///
/// Refusals 18 and 12.
pub fn contacts_codes(table: &[u8], state: &[u8]) -> Result<Vec<u8>, Refusal> {
    let count = blocks(table, CONTACT);
    let mut out = vec![0; LOCAL_CODE * count];
    let codes = calls::contacts_codes(table, count, state, &mut out)?;
    out.truncate(LOCAL_CODE * size(codes));
    Ok(out)
}

/// The C, L, R and M records that lead from a row to a wanted row: [`crate::records_to`].
///
/// # Errors
///
/// Refusals 2, 4 and 29.
pub fn records_to(row: &[u8], wanted: &[u8], locals: &[u8]) -> Result<Vec<u8>, Refusal> {
    let mut out = vec![0; RECORDS];
    let records = calls::records_to(row, wanted, locals, &mut out)?;
    out.truncate(RECORD * size(records));
    Ok(out)
}
