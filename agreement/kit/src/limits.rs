//! The limits in full: masters, batches and files of 16,777,215 records and one more, in mappings that take little memory.

use std::sync::OnceLock;

use generator::bulk;
use generator::records::{control, totals, Record, RECORD};
use generator::text::put_text;
use sparse::{all, Mapping};

use crate::calls::{named, Argument, CALLS};
use crate::case::numbers_of;
use crate::system;

const MOST: usize = 16_777_215;
const STATE: [u8; 2] = [0xD6, 0xC8];

/// A buffer that may be large.
#[derive(Clone, Debug)]
pub enum Wide {
    Bytes(Vec<u8>),
    /// Bytes, and zeros behind them up to a length.
    Zeros(Vec<u8>, usize),
    /// A record over and over, and one behind.
    Records(Vec<u8>, usize, Vec<u8>),
}

impl Wide {
    fn lend(&self) -> Mapping {
        match self {
            Wide::Bytes(bytes) => Mapping::closed(&[0], 0, bytes),
            Wide::Zeros(head, length) => {
                let mut mapping = Mapping::zeros(*length);
                mapping[..head.len()].copy_from_slice(head);
                mapping
            }
            Wide::Records(record, count, last) => Mapping::closed(record, *count, last),
        }
    }

    /// Whether what was lent is as it was.
    fn is_whole(&self, lent: &[u8]) -> bool {
        match self {
            Wide::Bytes(bytes) => lent == &bytes[..],
            Wide::Zeros(head, _) => lent.starts_with(head) && all(&lent[head.len()..], 0),
            Wide::Records(record, count, last) => {
                let (records, behind) = lent.split_at(record.len() * count);
                // the whole blocks are on the same pages
                let mut few = records.chunks(record.len()).take(70_000);
                let mut end = records.rchunks(record.len()).take(70_000);
                let same = |one: &[u8]| one == &record[..];
                few.all(same) && end.all(same) && behind == &last[..]
            }
        }
    }
}

pub struct Limit {
    pub call: usize,
    pub name: String,
    /// Buffers by the argument's name; those that aren't named are empty.
    buffers: Vec<(&'static str, Wide)>,
    counts: Vec<(&'static str, u64)>,
}

/// What an engine made of one.
#[derive(Clone, Debug, PartialEq, Eq)]
pub struct Outcome {
    pub answer: u64,
    pub numbers: Vec<u64>,
    /// The buffers that aren't as they were.
    pub changed: Vec<String>,
}

fn limit(
    call: &str,
    name: &str,
    buffers: Vec<(&'static str, Wide)>,
    counts: Vec<(&'static str, u64)>,
) -> Limit {
    Limit {
        call: named(call).unwrap_or(0),
        name: name.to_string(),
        buffers,
        counts,
    }
}

fn zeros(records: usize, width: usize) -> Wide {
    Wide::Zeros(Vec::new(), records * width)
}

/// So many records of one kind with their control record.
fn batch(record: &Record, count: usize) -> Wide {
    let mut sums = totals(&[*record]);
    sums.iter_mut().for_each(|sum| *sum *= count as u64);
    Wide::Records(record.to_vec(), count, control(STATE, sums).to_vec())
}

fn masters() -> Vec<Limit> {
    let mut limits = Vec::new();
    for spec in CALLS.iter().take(crate::calls::OWN) {
        if spec.argument("master").is_none() {
            continue;
        }
        for (rows, name) in [
            (MOST + 1, "a row too many"),
            (MOST, "as many rows as there can be, unsound"),
        ] {
            let mut counts = vec![("rows", rows as u64)];
            if spec.argument("year").is_some() {
                counts.push(("year", 2007));
            }
            limits.push(limit(
                spec.name,
                name,
                vec![("master", zeros(MOST + 1, 200))],
                counts,
            ));
        }
    }
    limits
}

fn files() -> Vec<Limit> {
    let year = || vec![("rows", 0), ("year", 2007)];
    vec![
        limit(
            "apply",
            "a record too many",
            vec![("batch", zeros(MOST + 2, RECORD))],
            year(),
        ),
        limit(
            "apply",
            "as many records as there can be, no CTL",
            vec![("batch", zeros(MOST + 1, RECORD))],
            year(),
        ),
        limit(
            "totals",
            "a record too many",
            vec![("batch", zeros(MOST + 2, RECORD))],
            vec![],
        ),
        limit(
            "totals",
            "as many records as there can be",
            vec![("batch", zeros(MOST + 1, RECORD))],
            vec![],
        ),
        limit(
            "merge",
            "a record too many",
            vec![("first", zeros(MOST + 2, RECORD))],
            vec![],
        ),
        limit(
            "merge",
            "as many records as there can be, no CTL",
            vec![("first", zeros(MOST + 1, RECORD))],
            vec![],
        ),
        limit(
            "post",
            "a record too many",
            vec![("file", zeros(MOST + 2, 240))],
            vec![("rows", 0)],
        ),
        limit(
            "post",
            "as many records as there can be, no TOTAL",
            vec![("file", zeros(MOST + 1, 240))],
            vec![("rows", 0)],
        ),
        limit(
            "contacts_update",
            "a record too many",
            vec![("file", zeros(MOST + 1, 220))],
            vec![("count", 0)],
        ),
        limit(
            "contacts_update",
            "as many records as there can be, no list",
            vec![("file", zeros(MOST, 220))],
            vec![("count", 0)],
        ),
    ]
}

fn rooms() -> Vec<Limit> {
    let row = bulk::rows(STATE, 1, 2);
    let mut add = bulk::add(STATE, 3);
    put_text(&mut add, 65, "00000025");
    let change = {
        let mut change = add;
        change[72] = 0xD4;
        change
    };
    let with_row = |details: usize, name: &str| {
        let master = Wide::Zeros(row.clone(), (MOST + 1) * 200);
        let buffers = vec![("master", master), ("batch", batch(&add, details))];
        limit("apply", name, buffers, vec![("rows", 1), ("year", 2007)])
    };
    let merged = |first: usize, name: &str| {
        let buffers = vec![
            ("first", batch(&change, first)),
            ("second", batch(&change, 1)),
        ];
        limit("merge", name, buffers, vec![])
    };
    vec![
        with_row(MOST, "room for a row above the limit"),
        with_row(
            MOST - 1,
            "room for as many rows as there can be, no verdicts",
        ),
        merged(MOST, "a detail too many together"),
        merged(
            MOST - 1,
            "as many details as there can be together, no output",
        ),
    ]
}

/// All of them; both processes have the same list.
pub fn limits() -> &'static [Limit] {
    static LIMITS: OnceLock<Vec<Limit>> = OnceLock::new();
    LIMITS.get_or_init(|| {
        masters()
            .into_iter()
            .chain(files())
            .chain(rooms())
            .collect()
    })
}

/// Makes the call of one.
///
/// # Safety
/// The function must be the call of this name with the interface of `fantanolive.h`.
pub unsafe fn run(function: *const (), limit: &Limit) -> Outcome {
    let mut words = Vec::new();
    let mut lent: Vec<(&'static str, Wide, Mapping)> = Vec::new();
    let mut results = [7u64; 8];
    let arguments = CALLS[limit.call].arguments;
    for argument in arguments {
        match argument {
            Argument::Count { name } => {
                let count = limit.counts.iter().find(|(one, _)| one == name);
                words.push(count.map_or(0, |(_, count)| *count));
            }
            Argument::Result { .. } => words.push(results.as_mut_ptr() as u64),
            Argument::Buffer { name, width, .. } => {
                let wide = limit.buffers.iter().find(|(one, _)| one == name);
                let wide = wide.map_or(Wide::Bytes(Vec::new()), |(_, wide)| wide.clone());
                let mapping = wide.lend();
                words.push(mapping.as_ptr() as u64);
                words.push((mapping.len() / width) as u64);
                lent.push((name, wide, mapping));
            }
        }
    }
    // SAFETY: the caller's.
    let answer = unsafe { system::call(function, &words) };
    let changed = lent
        .iter()
        .filter(|(_, wide, mapping)| !wide.is_whole(mapping));
    let bytes: Vec<u8> = results
        .iter()
        .flat_map(|number| number.to_le_bytes())
        .collect();
    Outcome {
        answer,
        numbers: numbers_of(&bytes, 8),
        changed: changed.map(|(name, _, _)| name.to_string()).collect(),
    }
}
