//! Document 02, item 6: posting collections (Charts 0-4 and 0-5), and the cents put into a master.

use crate::batch::{cases_of, write_master};
use crate::errors::live;
use crate::limits::MOST_RECORDS;
use crate::row::{refusal_03, refusal_04, refusal_04_old, Key, Row, DELETED, ROW};
use crate::text::{
    all_digits, column, columns, columns_mut, ebcdic, is_digit, number, write_number, SPACE,
};

pub const LINE: usize = 240;

/// Whole dollars, as in a row's 66–73.
#[derive(Clone, Copy, Debug, PartialEq, Eq)]
pub struct Dollars(pub u64);

/// Cents, as in the collection file.
#[derive(Clone, Copy, Debug, PartialEq, Eq, PartialOrd, Ord)]
pub struct Cents(pub u64);

pub const NOTHING: Cents = Cents(0);
/// 99,999,999.99
pub const MOST_BALANCE: Cents = Cents(9_999_999_999);

impl Dollars {
    fn in_cents(self) -> Cents {
        Cents(self.0 * 100)
    }
}

impl Cents {
    /// The dollars, and the cents besides.
    fn parts(self) -> (Dollars, Cents) {
        (Dollars(self.0 / 100), Cents(self.0 % 100))
    }
}

/// The balance of a sound row: dollars (66–73) and cents (197–198).
pub fn balance(row: &[u8]) -> Cents {
    let dollars = Dollars(number(columns(row, 66, 73)).unwrap_or(0));
    let cents = number(columns(row, 197, 198)).unwrap_or(0);
    Cents(dollars.in_cents().0 + cents)
}

/// "A case is deleted exactly when both parts are zero."
fn put_balance(row: &mut Row, balance: Cents) {
    let (dollars, cents) = balance.parts();
    write_number(columns_mut(row, 66, 73), dollars.0);
    write_number(columns_mut(row, 197, 198), cents.0);
    row[195] = if balance == NOTHING { DELETED } else { SPACE };
}

/// "a conversion, refused by 3 and 4 over the old row, writes 00 into a master"
pub fn add_cents(master: &mut [u8], rows: usize) -> Result<(), u64> {
    if refusal_03(master, rows) {
        return Err(3);
    }
    if refusal_04_old(master, rows) {
        return Err(4);
    }
    for row in master.chunks_exact_mut(ROW).take(rows) {
        columns_mut(row, 197, 198).copy_from_slice(&ebcdic(b"00"));
    }
    Ok(())
}

/// "A line's key is its columns 1–2, 6–14 and 107."
pub fn line_key(line: &[u8]) -> Key {
    let mut key = [SPACE; 12];
    key[..2].copy_from_slice(columns(line, 1, 2));
    key[2..11].copy_from_slice(columns(line, 6, 14));
    key[11] = column(line, 107);
    key
}

/// "Each is ten digits and a last digit F0–F9 or C0–C9, else bad." None stands for bad.
fn amount(field: &[u8]) -> Option<Cents> {
    let last = column(field, 11);
    if !all_digits(columns(field, 1, 10)) || !(is_digit(last) || matches!(last, 0xC0..=0xC9)) {
        return None;
    }
    let tens = number(columns(field, 1, 10))?;
    Some(Cents(tens * 10 + u64::from(last & 0x0F)))
}

/// "A collection (76–86)"
pub fn collection(line: &[u8]) -> Option<Cents> {
    amount(columns(line, 76, 86))
}

/// "an adjustment (87–97)"
pub fn adjustment(line: &[u8]) -> Option<Cents> {
    amount(columns(line, 87, 97))
}

/// "22 is a file empty, no multiple of 240 or over" the limit's records
pub fn refusal_22(file: &[u8]) -> bool {
    file.is_empty() || !file.len().is_multiple_of(LINE) || file.len() / LINE > MOST_RECORDS
}

/// How many lines have an amount above zero; "a bad one is zero".
pub fn count(lines: &[&[u8]], amount: fn(&[u8]) -> Option<Cents>) -> u64 {
    let above = lines
        .iter()
        .filter(|line| amount(line).is_some_and(|sum| sum > NOTHING));
    above.count() as u64
}

/// "23 a last record whose 6–14 aren't TOTAL and four spaces or whose 35–49 and 50–64 aren't, in
/// fifteen digits each, the numbers of lines with an adjustment and with a collection above zero"
pub fn refusal_23(lines: &[&[u8]], last: &[u8]) -> bool {
    columns(last, 6, 14) != ebcdic(b"TOTAL    ")
        || number(columns(last, 35, 49)) != Some(count(lines, adjustment))
        || number(columns(last, 50, 64)) != Some(count(lines, collection))
}

/// "24 a line list shorter than the lines"
pub fn refusal_24(list: &[u32], lines: &[&[u8]]) -> bool {
    list.len() < lines.len()
}

/// The row after a line, or none where the line is listed and not posted.
fn posted(row: Option<&Row>, line: &[u8]) -> Option<Row> {
    // "A line with .. one bad"
    let (collected, adjusted) = (collection(line)?, adjustment(line)?);
    // "both above zero"
    if collected > NOTHING && adjusted > NOTHING {
        return None;
    }
    // "no live row"
    let mut row = *live(row)?;
    // "an adjustment raises it"; "so is an adjustment that would pass 99,999,999.99"
    let raised = Cents(balance(&row).0 + adjusted.0);
    if raised > MOST_BALANCE {
        return None;
    }
    // "A collection lowers the balance, never below zero"
    put_balance(&mut row, Cents(raised.0.saturating_sub(collected.0)));
    Some(row)
}

/// Posts a file to the master: the count of the lines listed. Err holds the refusal's number.
pub fn post(master: &mut [u8], rows: usize, file: &[u8], list: &mut [u32]) -> Result<u64, u64> {
    if refusal_03(master, rows) {
        return Err(3);
    }
    if refusal_04(master, rows) {
        return Err(4);
    }
    if refusal_22(file) {
        return Err(22);
    }
    let mut lines: Vec<&[u8]> = file.chunks_exact(LINE).collect();
    let Some(last) = lines.pop() else {
        return Err(22);
    };
    if refusal_23(&lines, last) {
        return Err(23);
    }
    if refusal_24(list, &lines) {
        return Err(24);
    }
    let mut cases = cases_of(master, rows);
    let mut listed = Vec::new();
    for (line, number) in lines.iter().zip(1..=u32::MAX) {
        let key = line_key(line);
        match posted(cases.get(&key), line) {
            Some(row) => {
                cases.insert(key, row);
            }
            None => listed.push(number),
        }
    }
    write_master(master, &cases);
    list[..listed.len()].copy_from_slice(&listed);
    Ok(listed.len() as u64)
}
