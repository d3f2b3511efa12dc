//! The money of a posting, added up from the fields: balances before and behind, what was collected and adjusted, and what of the
//! collections was more than was owed.

use fantanolive::{KEY, LINE, ROW};

use super::amounts::{balance_of, cents_of, money, number_of, Places};
use super::columns::{line, row, total, Field};
use super::key_map::KeyMap;
use super::line_reasons::{key_of, Posted};
use super::posting::AMOUNTS;
use crate::code_page::{argument, code};
use crate::failure::Failure;

/// In cents, over the posted lines.
#[derive(Clone, Debug, Default, PartialEq, Eq)]
pub struct Money {
    pub before: u64,
    pub after: u64,
    pub collected: u64,
    pub adjusted: u64,
    /// What the lines that are not posted have of collections and of adjustments, where those are amounts.
    pub not_posted: [u64; 2],
    /// The cases that the file closed, and those of them that were sent more than was owed.
    pub closed: u64,
    pub with_excess: u64,
}

/// A case that the file closed: the place of its row, the first being 0, and what was collected beyond what it owed.
#[derive(Clone, Copy, Debug, PartialEq, Eq)]
pub struct ClosedCase {
    pub row: u32,
    pub excess: u64,
}

/// The same while the lines are added up: what was owed with the adjustments, and what was collected.
struct Closed {
    row: u32,
    owed: u64,
    collected: u64,
}

/// Rows that are read at a time.
const PART: usize = 1 << 11;

/// The sum of the balances of sound rows in cents.
fn balances(rows: &[[u8; ROW]]) -> u64 {
    let few = |rows: &[[u8; ROW]]| {
        let [mut dollars, mut cents] = [Places::default(); 2];
        for row in rows {
            dollars.add(row, row::ARREARAGE.last, 8);
            cents.add(row, row::CENTS.last, 2);
        }
        dollars.sum() * 100 + cents.sum()
    };
    rows.chunks(Places::MOST).map(few).sum()
}

/// The sums of the collections and of the adjustments of at most 16 lines whose amounts are right.
fn amounts(lines: &[[u8; LINE]]) -> [u64; 2] {
    let mut sums = [[Places::default(); 2]; 2];
    for record in lines {
        for ([front, last], field) in sums.iter_mut().zip(AMOUNTS) {
            front.add(record, field.last - 3, 8);
            last.add(record, field.last, 3);
        }
    }
    sums.map(|[front, last]| front.sum() * 1000 + last.sum())
}

impl Money {
    /// That of a posting, and the cases that are closed, those with the largest excess first.
    pub fn of(posted: &Posted) -> Result<(Money, Vec<ClosedCase>), Failure> {
        let mut money = Money::default();
        let mut closed = money.take_rows(posted)?;
        money.take_lines(posted, &mut closed);
        let case = |case: Closed| ClosedCase {
            row: case.row,
            excess: case.collected.saturating_sub(case.owed),
        };
        let mut cases: Vec<ClosedCase> = closed.into_values().map(case).collect();
        cases.sort_unstable_by_key(|case| (std::cmp::Reverse(case.excess), case.row));
        money.closed = cases.len() as u64;
        money.with_excess = cases.iter().filter(|case| case.excess > 0).count() as u64;
        Ok((money, cases))
    }

    /// Adds up the balances; the answer is the cases that are closed.
    fn take_rows(&mut self, posted: &Posted) -> Result<KeyMap<Closed>, Failure> {
        let mut closed = KeyMap::default();
        let (rows, _) = posted.rows.as_chunks();
        let mut part = vec![0; PART.min(rows.len()) * ROW];
        let (status, live) = (row::STATUS.first - 1, code(b' '));
        for (first, behind) in (0..).step_by(PART).zip(rows.chunks(PART)) {
            let part = &mut part[..behind.len() * ROW];
            (posted.read)(first, part)?;
            let (before, _) = part.as_chunks();
            self.before += balances(before);
            self.after += balances(behind);
            for (place, (old, new)) in before.iter().zip(behind).enumerate() {
                if old[status] == new[status] || old[status] != live {
                    continue;
                }
                let row = (first + place) as u32;
                let mut key = [0; KEY];
                key.copy_from_slice(&old[..KEY]);
                let (owed, collected) = (balance_of(old), 0);
                closed.insert(
                    key,
                    Closed {
                        row,
                        owed,
                        collected,
                    },
                );
            }
        }
        Ok(closed)
    }

    /// Adds up the lines that are posted.
    fn take_lines(&mut self, posted: &Posted, closed: &mut KeyMap<Closed>) {
        let (lines, _) = posted.lines.as_chunks();
        // those up to each line that is not posted
        let mut first = 0;
        for &number in posted.listed {
            let place = number as usize - 1;
            self.take_posted(&lines[first..place], closed);
            for (sum, field) in self.not_posted.iter_mut().zip(AMOUNTS) {
                *sum += cents_of(field.of(&lines[place])).unwrap_or_default();
            }
            first = place + 1;
        }
        self.take_posted(&lines[first..], closed);
    }

    /// Adds up lines that are posted, one behind the other: their amounts are right.
    fn take_posted(&mut self, lines: &[[u8; LINE]], closed: &mut KeyMap<Closed>) {
        for lines in lines.chunks(Places::MOST) {
            let [collected, adjusted] = amounts(lines);
            self.collected += collected;
            self.adjusted += adjusted;
        }
        if closed.is_empty() {
            return;
        }
        for record in lines {
            if let Some(case) = closed.get_mut(&key_of(record)) {
                case.collected += number_of(line::COLLECTION.of(record));
                case.owed += number_of(line::ADJUSTMENT.of(record));
            }
        }
    }

    /// What was collected beyond what was owed.
    pub fn excess(&self) -> u64 {
        (self.after + self.collected).saturating_sub(self.before + self.adjusted)
    }

    pub fn applied(&self) -> u64 {
        self.collected - self.excess()
    }

    /// `125.00 before + 0.50 adjusted = 100.50 after + 30.01 collected - 5.01 excess`.
    pub fn equation(&self) -> String {
        let [before, adjusted, after, collected, excess] = [
            self.before,
            self.adjusted,
            self.after,
            self.collected,
            self.excess(),
        ]
        .map(money);
        format!("{before} before + {adjusted} adjusted = {after} after + {collected} collected - {excess} excess")
    }
}

/// The amount totals of the last record, each with the field of the lines that it is the sum of.
const TOTALS: [(Field, Field); 3] = [
    (total::CERTIFIED_ARREARAGE, line::CERTIFIED_ARREARAGE),
    (total::COLLECTION, line::COLLECTION),
    (total::ADJUSTMENT, line::ADJUSTMENT),
];

/// Notes on the amount totals of the last record, which no rule reads: those that are not what the lines add up to. One that is
/// blank says nothing.
pub fn total_notes(lines: &[u8], last: &[u8]) -> Vec<String> {
    let space = argument(b" ")[0];
    let is_blank = |field: &Field| field.of(last).iter().all(|&byte| byte == space);
    if is_blank(&total::NET) && TOTALS.iter().all(|(field, _)| is_blank(field)) {
        return Vec::new();
    }
    let mut sums = [0; TOTALS.len()];
    for record in lines.chunks_exact(LINE) {
        for (sum, (_, field)) in sums.iter_mut().zip(TOTALS) {
            *sum += cents_of(field.of(record)).unwrap_or_default();
        }
    }
    let stated = TOTALS.map(|(field, _)| field).into_iter().zip(sums);
    let net = sums[1].checked_sub(sums[2]).map(|net| (total::NET, net));
    let notes = stated.chain(net).filter_map(|(field, sum)| {
        let start = format!("the last record's {} ({})", field.name, field.columns());
        match cents_of(field.of(last)) {
            _ if is_blank(&field) => None,
            Some(stated) if stated == sum => None,
            Some(stated) => Some(format!(
                "{start} is {}, and the lines add up to {}: a difference of {}",
                money(stated),
                money(sum),
                money(stated.abs_diff(sum)),
            )),
            None => Some(format!("{start} is no amount")),
        }
    });
    notes.collect()
}
