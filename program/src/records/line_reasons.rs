//! Why lines of a collection file are not posted. What is wrong with a line by itself is asked of the library with a case made
//! up; else it is the case at the line's turn: from the row before the file on, the library posts the lines of its key one by
//! one.

use std::collections::hash_map::Entry;

use fantanolive::{KEY, LINE, ROW};

use super::amounts::money;
use super::columns::line;
use super::field::Form;
use super::key_map::{Key, KeyMap};
use super::posting::{Case, Fault, LineFaults, AMOUNTS};
use crate::failure::{grouped, Failure};

/// Why a line is not posted.
#[derive(Clone, Debug, PartialEq, Eq)]
pub enum Reason {
    /// Which of the collection and the adjustment are no amounts.
    NoAmount([bool; 2]),
    TwoAmounts,
    /// No row has the key.
    NoCase,
    /// The case was deleted before the file.
    ClosedBefore,
    /// A line of the file, the first being 1, brought it to zero.
    ClosedByLine(u32),
    /// The balance would be too large: that at the line's turn, in cents.
    TooLarge(u64),
}

impl Reason {
    /// Its name in JSON and in charts.
    pub fn name(&self) -> &'static str {
        match self {
            Reason::NoAmount(_) => "no amount",
            Reason::TwoAmounts => "two amounts",
            Reason::NoCase => "no case",
            Reason::ClosedBefore => "closed before",
            Reason::ClosedByLine(_) => "closed in this file",
            Reason::TooLarge(_) => "balance too large",
        }
    }

    /// What to do with a line that has it.
    pub fn fix(&self) -> &'static str {
        match self {
            Reason::NoAmount(_) => "ask who sent the file for the amount: eleven digits, the last two of them cents",
            Reason::TwoAmounts => "ask who sent the file which of the two is meant: a line posts one",
            Reason::NoCase => "check state, SSN and case type; `fantanolive show master MASTER --search NAME` looks for a name",
            Reason::ClosedBefore | Reason::ClosedByLine(_) => "see by `fantanolive find MASTER KEY` what the case has; what the line has is in no balance, and is to be settled by hand",
            Reason::TooLarge(_) => "check the adjustment: a balance has eight digits of dollars",
        }
    }

    /// Writes what is to be known of a line with this reason.
    pub fn put_words(&self, form: &Form, record: &[u8], out: &mut String) {
        match self {
            Reason::NoAmount(wrong) => put_no_amounts(*wrong, form, record, out),
            Reason::TwoAmounts => out.push_str("a collection and an adjustment in one line"),
            Reason::NoCase => out.push_str("no case has this key"),
            Reason::ClosedBefore => out.push_str("the case was closed before this file"),
            Reason::ClosedByLine(number) => {
                let number = grouped(u64::from(*number));
                out.push_str(&format!(
                    "the case was closed by line {number} of this file"
                ));
            }
            Reason::TooLarge(balance) => {
                let balance = money(*balance);
                out.push_str(&format!(
                    "the balance of {balance} would pass 99,999,999.99"
                ));
            }
        }
    }
}

/// The amounts that are none, as they stand.
fn put_no_amounts(wrong: [bool; 2], form: &Form, record: &[u8], out: &mut String) {
    out.push_str("not eleven digits: ");
    let mut between = "";
    for (field, _) in AMOUNTS.iter().zip(wrong).filter(|(_, wrong)| *wrong) {
        out.push_str(between);
        out.push_str(field.name);
        out.push_str(" '");
        form.put_text(field.of(record), out);
        out.push('\'');
        between = ", ";
    }
}

/// The key of a line.
pub fn key_of(record: &[u8]) -> Key {
    let mut key = [0; KEY];
    key[..2].copy_from_slice(line::STATE.of(record));
    key[2..11].copy_from_slice(line::SSN.of(record));
    key[11..].copy_from_slice(line::CASE_TYPE.of(record));
    key
}

/// A case at a turn.
struct Turn {
    /// None where no row has the key.
    case: Option<Case>,
    closed_by: Option<u32>,
}

/// What the reasons are looked up in.
pub struct Posted<'a> {
    /// The lines without the last record, and the numbers of those that are not posted.
    pub lines: &'a [u8],
    pub listed: &'a [u32],
    /// The rows behind the file: they have the places of those before.
    pub rows: &'a [u8],
    /// Reads the row before the file at a place.
    pub read: &'a dyn Fn(usize, &mut [u8]) -> Result<(), Failure>,
}

impl Posted<'_> {
    fn line(&self, number: u32) -> &[u8] {
        &self.lines[(number as usize - 1) * LINE..][..LINE]
    }

    /// The reason of each line that is not posted.
    pub fn reasons(&self) -> Result<Vec<Reason>, Failure> {
        let mut faults = LineFaults::default();
        let of_line = |number: &u32| {
            faults.of(self.line(*number)).map(|fault| match fault {
                Fault::NoAmount(wrong) => Reason::NoAmount(wrong),
                Fault::TwoAmounts => Reason::TwoAmounts,
            })
        };
        let mut reasons: Vec<Option<Reason>> = self.listed.iter().map(of_line).collect();
        let mut turns = self.turns(&reasons)?;
        self.replay(&mut turns, &mut reasons);
        Ok(reasons
            .into_iter()
            .map(|r| r.unwrap_or(Reason::NoCase))
            .collect())
    }

    /// The cases before the file of the lines whose reasons are not known yet.
    fn turns(&self, reasons: &[Option<Reason>]) -> Result<KeyMap<Turn>, Failure> {
        let mut turns: KeyMap<Turn> = KeyMap::default();
        let open = self.listed.iter().zip(reasons);
        for (&number, _) in open.filter(|(_, reason)| reason.is_none()) {
            let key = key_of(self.line(number));
            if let Entry::Vacant(entry) = turns.entry(key) {
                entry.insert(Turn {
                    case: self.case_before(&key)?,
                    closed_by: None,
                });
            }
        }
        Ok(turns)
    }

    /// The case of a key before the file; none where no row has it. The rows rise by their keys.
    fn case_before(&self, key: &Key) -> Result<Option<Case>, Failure> {
        let (rows, _) = self.rows.as_chunks::<ROW>();
        let Ok(place) = rows.binary_search_by(|row| row[..KEY].cmp(key)) else {
            return Ok(None);
        };
        let mut row = [0; ROW];
        (self.read)(place, &mut row)?;
        Ok(Some(Case::of(&row)))
    }

    /// Posts the lines of these cases in file order, and gives the reasons that are missing.
    fn replay(&self, turns: &mut KeyMap<Turn>, reasons: &mut [Option<Reason>]) {
        if turns.is_empty() {
            return;
        }
        let mut listed = self.listed.iter().zip(reasons).peekable();
        for (number, record) in (1..).zip(self.lines.chunks_exact(LINE)) {
            let open = match listed.peek() {
                Some((next, _)) if **next == number => listed.next().map(|(_, reason)| reason),
                _ => None,
            };
            let Some(turn) = turns.get_mut(&key_of(record)) else {
                continue;
            };
            match open {
                None => turn.post(number, record),
                Some(reason) if reason.is_none() => *reason = Some(turn.reason()),
                Some(_) => {}
            }
        }
    }
}

impl Turn {
    fn post(&mut self, number: u32, record: &[u8]) {
        let Some(behind) = self.case.and_then(|case| case.posted(record)) else {
            return;
        };
        if !behind.is_live {
            self.closed_by = Some(number);
        }
        self.case = Some(behind);
    }

    /// Why a line that has no fault by itself is not posted now.
    fn reason(&self) -> Reason {
        match (self.case, self.closed_by) {
            (None, _) => Reason::NoCase,
            (Some(case), _) if case.is_live => Reason::TooLarge(case.balance),
            (Some(_), Some(line)) => Reason::ClosedByLine(line),
            (Some(_), None) => Reason::ClosedBefore,
        }
    }
}

#[cfg(test)]
mod tests {
    use super::super::columns::{row, total};
    use super::super::field::text_in;
    use super::super::made_up_case::live_row;
    use super::super::money::Money;
    use super::*;
    use crate::code_page::argument;
    use fantanolive::{post, ROW};
    use std::collections::HashMap;

    /// Numbers that look like chance.
    struct Chance(u64);

    impl Chance {
        fn below(&mut self, limit: usize) -> usize {
            self.0 = self
                .0
                .wrapping_mul(6_364_136_223_846_793_005)
                .wrapping_add(1);
            (self.0 >> 33) as usize % limit
        }

        fn of<'a>(&mut self, list: &[&'a str]) -> &'a str {
            list[self.below(list.len())]
        }
    }

    const KEYS: [&str; 5] = [
        "900000001",
        "900000002",
        "900000003",
        "900000009",
        "000000000",
    ];
    const AMOUNTS: [&str; 6] = [
        "00000000000",
        "00000000001",
        "0000000100C",
        "00999999999",
        "99999999999",
        "0000000A000",
    ];

    /// Three rows: two live ones and a third that may be deleted.
    fn rows(chance: &mut Chance) -> Vec<u8> {
        let row = |(ssn, dollars): (&str, &str)| {
            let mut bytes = live_row();
            let status = if dollars == "00000000" { "D" } else { " " };
            for (field, text) in [
                (row::SSN, ssn),
                (row::ARREARAGE, dollars),
                (row::STATUS, status),
            ] {
                field.set(&mut bytes, &argument(text.as_bytes()));
            }
            bytes
        };
        let dollars = ["00000000", "00000001", "00000025", "99999999"];
        let list = KEYS[..3].iter().map(|key| (*key, chance.of(&dollars)));
        list.collect::<Vec<_>>().into_iter().flat_map(row).collect()
    }

    /// A file of lines, with its last record.
    fn file(chance: &mut Chance) -> Vec<u8> {
        let mut lines = Vec::new();
        let (mut adjustments, mut collections) = (0, 0);
        for _ in 0..chance.below(25) {
            let ssn = chance.of(&KEYS);
            let (mut collection, mut adjustment) = (chance.of(&AMOUNTS), AMOUNTS[0]);
            if chance.below(2) == 0 {
                (collection, adjustment) = (adjustment, collection);
            } else if chance.below(5) == 0 {
                adjustment = chance.of(&AMOUNTS);
            }
            let is_above = |text: &str| text != AMOUNTS[0] && text != AMOUNTS[5];
            adjustments += u64::from(is_above(adjustment));
            collections += u64::from(is_above(collection));
            let fields = [
                (line::STATE, "OH"),
                (line::SSN, ssn),
                (line::CASE_TYPE, "N"),
                (line::COLLECTION, collection),
                (line::ADJUSTMENT, adjustment),
            ];
            lines.extend(text_in(LINE, &fields));
        }
        let counts = [format!("{adjustments:015}"), format!("{collections:015}")];
        let fields = [
            (total::MARK, "TOTAL"),
            (total::ADJUSTMENTS, &counts[0]),
            (total::COLLECTIONS, &counts[1]),
        ];
        lines.extend(text_in(LINE, &fields));
        lines
    }

    fn cents(bytes: &[u8]) -> Option<u64> {
        match bytes == argument(AMOUNTS[5].as_bytes()) {
            true => None,
            false => Some(
                bytes
                    .iter()
                    .fold(0, |sum, byte| sum * 10 + u64::from(byte & 15)),
            ),
        }
    }

    /// A balance, whether the case is live, the line that closed it, and whether one collected more than it owed; by key.
    type Cases = HashMap<Vec<u8>, (u64, bool, Option<u32>, bool)>;

    fn cases_of(rows: &[u8]) -> Cases {
        let case = |bytes: &[u8]| {
            let case = Case::of(bytes);
            let key = bytes[..KEY].to_vec();
            (key, (case.balance, case.is_live, None, false))
        };
        rows.chunks_exact(ROW).map(case).collect()
    }

    /// The paper's rules, line by line: the reasons and the money.
    fn by_the_paper(before: &[u8], lines: &[u8]) -> (Vec<(u32, Reason)>, Money, u64) {
        let mut cases = cases_of(before);
        let mut money = Money::default();
        money.before = cases.values().map(|case| case.0).sum();
        let (mut listed, mut excess) = (Vec::new(), 0);
        for (number, record) in (1..).zip(lines.chunks_exact(LINE)) {
            let amounts = [line::COLLECTION, line::ADJUSTMENT].map(|field| cents(field.of(record)));
            let case = cases.get_mut(&key_of(record)[..]);
            let reason = match (amounts, case) {
                ([None, _] | [_, None], _) => Reason::NoAmount(amounts.map(|a| a.is_none())),
                ([Some(1..), Some(1..)], _) => Reason::TwoAmounts,
                (_, None) => Reason::NoCase,
                (_, Some((_, false, None, _))) => Reason::ClosedBefore,
                (_, Some((_, false, Some(line), _))) => Reason::ClosedByLine(*line),
                ([_, Some(adjustment)], Some((balance, ..)))
                    if *balance + adjustment > 9_999_999_999 =>
                {
                    Reason::TooLarge(*balance)
                }
                ([Some(collection), Some(adjustment)], Some(case)) => {
                    money.collected += collection;
                    money.adjusted += adjustment;
                    excess += collection.saturating_sub(case.0);
                    case.3 |= collection > case.0;
                    case.0 = case.0.saturating_sub(collection) + adjustment;
                    if case.0 == 0 {
                        (case.1, case.2) = (false, Some(number));
                    }
                    continue;
                }
            };
            for (sum, amount) in money.not_posted.iter_mut().zip(amounts) {
                *sum += amount.unwrap_or_default();
            }
            listed.push((number, reason));
        }
        money.after = cases.values().map(|case| case.0).sum();
        money.closed = cases.values().filter(|case| case.2.is_some()).count() as u64;
        money.with_excess = cases.values().filter(|case| case.3).count() as u64;
        (listed, money, excess)
    }

    #[test]
    fn reasons_and_money_are_the_papers() {
        let mut chance = Chance(7);
        for _ in 0..3000 {
            let before = rows(&mut chance);
            let file = file(&mut chance);
            let lines = &file[..file.len() - LINE];
            let (mut after, mut list) = (before.clone(), vec![0; lines.len() / LINE]);
            let listed = post(&mut after, before.len() / ROW, &file, &mut list).expect("a file");
            list.truncate(listed as usize);
            let posted = Posted {
                lines,
                listed: &list,
                rows: &after,
                read: &|place, bytes| {
                    bytes.copy_from_slice(&before[place * ROW..][..bytes.len()]);
                    Ok(())
                },
            };
            let reasons = posted.reasons().expect("it can be read");
            let (money, closed) = Money::of(&posted).expect("it can be read");
            let (by_hand, wanted, excess) = by_the_paper(&before, lines);
            let found: Vec<(u32, Reason)> = list.iter().copied().zip(reasons).collect();
            assert_eq!(found, by_hand);
            assert_eq!(money, wanted);
            assert_eq!(money.excess(), excess);
            assert_eq!(closed.iter().map(|case| case.excess).sum::<u64>(), excess);
            for case in closed {
                let row = &after[case.row as usize * ROW..][..ROW];
                assert_eq!(row::STATUS.of(row), argument(b"D"));
            }
            let sides = (money.before + money.adjusted, money.after + money.applied());
            assert_eq!(sides.0, sides.1);
        }
    }
}
