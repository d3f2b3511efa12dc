//! One line of a collection file posted to one case: the library is asked about the line and a row made up with a balance.

use std::sync::LazyLock;

use fantanolive::{post, Refusal, LINE, ROW};

use super::amounts::{balance_of, cents_of};
use super::columns::{line, row, total, Field};
use super::field::text_in;
use super::made_up_case::{live_row, CASE_TYPE, SSN, STATE};
use crate::code_page::code;

/// What is left of a case: its balance in cents, and whether it is live.
#[derive(Clone, Copy, Debug, PartialEq, Eq)]
pub struct Case {
    pub balance: u64,
    pub is_live: bool,
}

/// A line of the case that is made up, and behind it a last record that counts nothing.
static FILE: LazyLock<[u8; 2 * LINE]> = LazyLock::new(|| {
    let own = [
        (line::STATE, STATE),
        (line::SSN, SSN),
        (line::CASE_TYPE, CASE_TYPE),
    ];
    let last = [
        (total::MARK, "TOTAL"),
        (total::ADJUSTMENTS, "000000000000000"),
        (total::COLLECTIONS, "000000000000000"),
    ];
    let records = [text_in(LINE, &own), text_in(LINE, &last)];
    let mut bytes = [0; 2 * LINE];
    bytes.copy_from_slice(&records.concat());
    bytes
});

/// The digits from 0 on.
static DIGITS: LazyLock<[u8; 10]> = LazyLock::new(|| b"0123456789".map(code));

/// Puts a number into a field, in digits from its end on.
fn set_number(field: &Field, number: u64, record: &mut [u8]) {
    let digits = &*DIGITS;
    let mut rest = number;
    for place in record[field.first - 1..field.last].iter_mut().rev() {
        *place = digits[(rest % 10) as usize];
        rest /= 10;
    }
}

impl Case {
    /// That of a row.
    pub fn of(bytes: &[u8]) -> Case {
        Case {
            balance: balance_of(bytes),
            is_live: row::STATUS.of(bytes) == [code(b' ')],
        }
    }

    /// The row that is made up for it.
    fn row(self) -> [u8; ROW] {
        let mut bytes = live_row();
        set_number(&row::ARREARAGE, self.balance / 100, &mut bytes);
        set_number(&row::CENTS, self.balance % 100, &mut bytes);
        let status = if self.is_live { b' ' } else { b'D' };
        row::STATUS.set(&mut bytes, &[code(status)]);
        bytes
    }

    /// The case behind a line; none where the line is not posted.
    pub fn posted(self, record: &[u8]) -> Option<Case> {
        let mut bytes = self.row();
        let (_, is_posted) = post_line(&mut bytes, 1, record)?;
        is_posted.then(|| Case::of(&bytes))
    }
}

/// Posts a line to rows with the key that is made up: posting reads nothing else of a line than its key and its amounts. The
/// answer is which of the amounts, the collection and the adjustment, the library counts as above zero, and whether the line is
/// posted; none where it is refused.
fn post_line(rows: &mut [u8], count: usize, record: &[u8]) -> Option<([bool; 2], bool)> {
    let mut file = *FILE;
    for field in &AMOUNTS {
        field.set(&mut file, field.of(record));
    }
    let mut list = [0];
    let likely = AMOUNTS.map(|field| cents_of(field.of(record)).is_some_and(|cents| cents > 0));
    for other in [[false, false], [true, false], [false, true], [true, true]] {
        let above = [likely[0] ^ other[0], likely[1] ^ other[1]];
        for (field, is_above) in [total::COLLECTIONS, total::ADJUSTMENTS].iter().zip(above) {
            file[LINE + field.last - 1] = DIGITS[usize::from(is_above)];
        }
        match post(rows, count, &file, &mut list) {
            // the counts are others
            Err(Refusal::WrongTotal) => {}
            Err(_) => return None,
            Ok(listed) => return Some((above, listed == 0)),
        }
    }
    None
}

/// Which of the amounts of a line, the collection and the adjustment, the library counts as above zero.
pub fn above_zero(record: &[u8]) -> [bool; 2] {
    // it counts them before it looks for a case
    post_line(&mut [], 0, record).map_or([false; 2], |(above, _)| above)
}

/// A live case of 25 dollars, of which a small line can't be too much.
const USUAL: Case = Case {
    balance: 2500,
    is_live: true,
};

/// The amounts of a line.
pub const AMOUNTS: [Field; 2] = [line::COLLECTION, line::ADJUSTMENT];

/// What keeps a line from being posted whatever its case.
#[derive(Debug, PartialEq, Eq)]
pub enum Fault {
    /// Which of them, the collection and the adjustment, are no amounts.
    NoAmount([bool; 2]),
    /// A collection and an adjustment above zero.
    TwoAmounts,
}

/// The faults of lines by themselves.
#[derive(Default)]
pub struct LineFaults {
    /// The amounts of nothing that lines had. There are two, with a sign and without.
    nothing: Vec<Vec<u8>>,
}

impl LineFaults {
    /// The fault of a line; none where it has none. The rule knows no others than that an amount is none, or that both are above
    /// zero.
    pub fn of(&mut self, record: &[u8]) -> Option<Fault> {
        let above = above_zero(record);
        if above == [true, true] {
            return Some(Fault::TwoAmounts);
        }
        let mut wrong = [false; 2];
        for (place, field) in AMOUNTS.iter().enumerate() {
            // what is above zero is an amount
            wrong[place] = !above[place] && !self.is_nothing(field.of(record));
        }
        (wrong != [false; 2]).then_some(Fault::NoAmount(wrong))
    }

    /// Whether what is not above zero is an amount, of nothing: it is posted as a collection.
    fn is_nothing(&mut self, amount: &[u8]) -> bool {
        if self.nothing.iter().any(|known| known == amount) {
            return true;
        }
        let mut line = [code(b'0'); LINE];
        line::COLLECTION.set(&mut line, amount);
        let is_amount = USUAL.posted(&line).is_some();
        if is_amount {
            self.nothing.push(amount.to_vec());
        }
        is_amount
    }
}

#[cfg(test)]
mod tests {
    use super::*;

    /// Amounts of nothing and of a cent.
    const ZERO: &str = "00000000000";
    const CENT: &str = "00000000001";

    fn fault_of(record: &[u8]) -> Option<Fault> {
        LineFaults::default().of(record)
    }

    fn a_line(collection: &str, adjustment: &str) -> Vec<u8> {
        let fields = [
            (line::COLLECTION, collection),
            (line::ADJUSTMENT, adjustment),
        ];
        text_in(LINE, &fields)
    }

    #[test]
    fn faults_of_lines() {
        assert_eq!(fault_of(&a_line(ZERO, ZERO)), None);
        assert_eq!(fault_of(&a_line("99999999999", ZERO)), None);
        // too large for the usual case, but no fault of the line
        assert_eq!(fault_of(&a_line(ZERO, "99999999999")), None);
        assert_eq!(fault_of(&a_line(CENT, CENT)), Some(Fault::TwoAmounts));
        assert_eq!(
            fault_of(&a_line(CENT, "99999999999")),
            Some(Fault::TwoAmounts)
        );
        for (collection, adjustment, wrong) in [
            ("0000000000", ZERO, [true, false]),
            (ZERO, "0000000000X", [false, true]),
            ("0000000000X", "99999999999", [true, false]),
            ("X", "0000E000000", [true, true]),
        ] {
            let fault = fault_of(&a_line(collection, adjustment));
            assert_eq!(
                fault,
                Some(Fault::NoAmount(wrong)),
                "{collection} {adjustment}"
            );
        }
    }

    #[test]
    fn cases_behind_lines() {
        let case = |balance, is_live| Case { balance, is_live };
        let posted =
            |collection, adjustment| case(150, true).posted(&a_line(collection, adjustment));
        assert_eq!(posted("00000000050", ZERO), Some(case(100, true)));
        assert_eq!(posted("00000000150", ZERO), Some(case(0, false)));
        assert_eq!(posted("00000000999", ZERO), Some(case(0, false)));
        assert_eq!(posted(ZERO, "00000000001"), Some(case(151, true)));
        assert_eq!(posted(ZERO, ZERO), Some(case(150, true)));
        assert_eq!(posted(CENT, CENT), None);
        assert_eq!(case(0, false).posted(&a_line(ZERO, CENT)), None);
        assert_eq!(case(9_999_999_999, true).posted(&a_line(ZERO, CENT)), None);
        let most = case(9_999_999_999, true);
        assert_eq!(
            case(9_999_999_998, true).posted(&a_line(ZERO, CENT)),
            Some(most)
        );
    }

    /// The fault of a line with each amount asked about by itself: as the collection of a line beside an adjustment of nothing,
    /// and beside one of a cent, where what is above zero is not posted.
    fn by_itself(record: &[u8]) -> Option<Fault> {
        let is_posted = |field: &Field, other: &str| {
            let mut line = a_line("", other);
            line::COLLECTION.set(&mut line, field.of(record));
            USUAL.posted(&line).is_some()
        };
        let wrong = AMOUNTS.map(|field| !is_posted(&field, ZERO));
        if wrong != [false, false] {
            return Some(Fault::NoAmount(wrong));
        }
        let is_above = |field: &Field| !is_posted(field, CENT);
        AMOUNTS.iter().all(is_above).then_some(Fault::TwoAmounts)
    }

    #[test]
    fn faults_as_of_each_amount_by_itself() {
        let digits = [0xF0, 0xF0, 0xF0, 0xF9, 0xC0, 0xC5, 0xD0, 0x40, 0xFA];
        let mut chance = 7u64;
        let mut below = |limit: usize| {
            chance = chance.wrapping_mul(6_364_136_223_846_793_005);
            chance = chance.wrapping_add(1);
            (chance >> 33) as usize % limit
        };
        let mut faults = LineFaults::default();
        let mut found = [0; 3];
        for _ in 0..3000 {
            let mut record = a_line(ZERO, ZERO);
            for field in AMOUNTS {
                let place = field.last - 1 - below(2) * below(11);
                record[place] = digits[below(digits.len())];
            }
            let fault = faults.of(&record);
            assert_eq!(fault, by_itself(&record), "{record:?}");
            found[match fault {
                None => 0,
                Some(Fault::TwoAmounts) => 1,
                Some(Fault::NoAmount(_)) => 2,
            }] += 1;
        }
        assert!(found.iter().all(|&count| count > 100), "{found:?}");
        assert_eq!(faults.nothing.len(), 2);
    }
}
