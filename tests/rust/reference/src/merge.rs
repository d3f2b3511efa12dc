//! Document 02, item 13: two batches into one.

use crate::batch::{parts, RECORD};
use crate::limits::MOST;
use crate::text::{columns, columns_mut, ebcdic, number, write_number, SPACE};

/// The most that eleven digits hold.
pub const MOST_AMOUNT: u64 = 99_999_999_999;

/// The four totals of a control record (Chart A-2): two counts, two amounts.
const TOTALS: [(usize, usize); 4] = [(6, 14), (15, 23), (24, 34), (35, 45)];

fn totals_of(control: &[u8]) -> [u64; 4] {
    TOTALS.map(|(first, last)| number(columns(control, first, last)).unwrap_or(0))
}

/// Two batches that pass 5 to 8, 20 and 21, joined.
struct Merged<'a> {
    details: Vec<&'a [u8]>,
    states: [&'a [u8]; 2],
    totals: [u64; 4],
}

impl<'a> Merged<'a> {
    fn new(first: &'a [u8], second: &'a [u8]) -> Result<Merged<'a>, u64> {
        let (mut details, one) = parts(first)?;
        let (behind, two) = parts(second)?;
        // "the first's details, the second's"
        details.extend(behind);
        let (ones, twos) = (totals_of(one), totals_of(two));
        Ok(Merged {
            details,
            states: [columns(one, 1, 2), columns(two, 1, 2)],
            totals: std::array::from_fn(|at| ones[at] + twos[at]),
        })
    }

    /// "two different states", more details than the limit, "or an amount total above eleven digits"
    fn refusal_32(&self) -> bool {
        let [one, two] = self.states;
        let amounts = &self.totals[2..];
        one != two || self.details.len() > MOST || amounts.iter().any(|&sum| sum > MOST_AMOUNT)
    }

    /// "a control record with summed totals"
    fn control(&self) -> [u8; RECORD] {
        let mut control = [SPACE; RECORD];
        columns_mut(&mut control, 1, 2).copy_from_slice(self.states[0]);
        columns_mut(&mut control, 3, 5).copy_from_slice(&ebcdic(b"CTL"));
        for ((first, last), total) in TOTALS.into_iter().zip(self.totals) {
            write_number(columns_mut(&mut control, first, last), total);
        }
        control
    }
}

/// Merges two batches: how many records the merged one has. Err holds the refusal's number.
pub fn merge(first: &[u8], second: &[u8], out: &mut [u8]) -> Result<u64, u64> {
    let merged = Merged::new(first, second)?;
    if merged.refusal_32() {
        return Err(32);
    }
    let records = merged.details.len() + 1;
    // "33 an output shorter than the result"
    if out.len() < records * RECORD {
        return Err(33);
    }
    let control = merged.control();
    let last = std::iter::once(&control[..]);
    let places = out.chunks_exact_mut(RECORD);
    for (place, record) in places.zip(merged.details.iter().copied().chain(last)) {
        place.copy_from_slice(record);
    }
    Ok(records as u64)
}
