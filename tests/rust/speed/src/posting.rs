//! Posting collections, written for speed: the rows' keys go to a hash table, and the lines are
//! worked sixteen at a time, so that the waits for their places and rows overlap.

use crate::field::{at, digits, key_number, number, number8, sound, word, Row, SPACE, ZERO};
use crate::lookup::sound_order;
use crate::{packed, vector, Table, BLOCK, MOST, NONE, NUMBER_BITS};

type Line = [u8; 240];

const BAD: u8 = 255;

/// The last digit of an amount, or `BAD`.
const fn last_digits() -> [u8; 256] {
    let mut table = [BAD; 256];
    let mut digit = 0;
    while digit < 10 {
        table[0xC0 + digit] = digit as u8;
        table[0xF0 + digit] = digit as u8;
        digit += 1;
    }
    table
}

static LAST: [u8; 256] = last_digits();

/// The cents of eleven bytes from a place on, or none for a bad amount.
#[inline(always)]
fn amount(line: &Line, place: usize) -> Option<u64> {
    let last = LAST[usize::from(line[place + 10])];
    let right = (vector::digits(at(line, place)) & 0x3FF == 0x3FF) & (last != BAD);
    let hundreds = number8(at(line, place)) * 1000;
    let tens = u64::from(line[place + 8] & 15) * 100 + u64::from(line[place + 9] & 15) * 10;
    right.then_some(hundreds + tens + u64::from(last))
}

/// What the first pass finds in a line: its key's number or `u64::MAX`, and its amounts.
#[derive(Clone, Copy)]
struct Order {
    key: u64,
    /// The collection, or the adjustment with `RAISES`, or `u64::MAX` for a line not to be posted.
    cents: u64,
}

const RAISES: u64 = 1 << 63;

/// The lines' orders, and how many have an adjustment and a collection above zero.
fn read_lines(lines: &[Line]) -> (Vec<Order>, [u64; 2]) {
    let mut counts = [0; 2];
    let orders = lines
        .iter()
        .map(|line| {
            let (key, errors) = packed(at(line, 0), at(line, 5), line[106]);
            let (collected, adjusted) = (amount(line, 75), amount(line, 86));
            counts[0] += u64::from(adjusted.unwrap_or(0) > 0);
            counts[1] += u64::from(collected.unwrap_or(0) > 0);
            let cents = match (collected, adjusted) {
                (Some(collected), Some(0)) => collected,
                (Some(0), Some(adjusted)) => adjusted | RAISES,
                _ => u64::MAX,
            };
            let key = if errors == 0 { key } else { u64::MAX };
            Order { key, cents }
        })
        .collect();
    (orders, counts)
}

/// The last record is no total of the lines.
fn total_wrong(last: &Line, [adjusted, collected]: [u64; 2]) -> bool {
    last[5..14] != word(b"TOTAL    ")
        || !digits(&last[34..64])
        || number(&last[34..49]) != adjusted
        || number(&last[49..64]) != collected
}

/// The rows of keys: by halving for few keys, else by a hash table.
struct Places(Option<Table<NUMBER_BITS>>);

impl Places {
    /// None for an unsound row or order.
    fn new(rows: &[Row], looked_for: usize) -> Option<Places> {
        if looked_for <= rows.len() / 16 {
            return sound_order(rows).then_some(Places(None));
        }
        let mut table = Table::new(rows.len());
        let mut before = None;
        let mut start = 0;
        for block in rows.chunks(BLOCK) {
            let mut keys = [0; BLOCK];
            for (row, own) in block.iter().zip(&mut keys) {
                let key = key_number(row);
                if !sound(row) | (before >= Some(key)) {
                    return None;
                }
                before = Some(key);
                *own = key;
                table.fetch(key);
            }
            for (place, &key) in (start..).zip(&keys[..block.len()]) {
                table.enter(key, place);
            }
            start += BLOCK as u32;
        }
        Some(Places(Some(table)))
    }

    #[inline(always)]
    fn fetch(&self, key: u64) {
        if let Some(table) = &self.0 {
            table.fetch(key);
        }
    }

    #[inline(always)]
    fn of(&self, key: u64, rows: &[Row]) -> u32 {
        if key == u64::MAX {
            return NONE;
        }
        match &self.0 {
            Some(table) => table.get(key).unwrap_or(NONE),
            None => rows
                .binary_search_by_key(&key, key_number)
                .map_or(NONE, |place| place as u32),
        }
    }
}

/// The two digits of a number below 100.
const fn pairs() -> [[u8; 2]; 100] {
    let mut table = [[ZERO; 2]; 100];
    let mut number = 0;
    while number < 100 {
        table[number] = [ZERO + (number / 10) as u8, ZERO + (number % 10) as u8];
        number += 1;
    }
    table
}

static PAIRS: [[u8; 2]; 100] = pairs();

/// Posts to a row; true if the row isn't live or the balance would pass 99,999,999.99.
#[inline(always)]
fn post_to(row: &mut Row, cents: u64) -> bool {
    if row[195] != SPACE {
        return true;
    }
    let own = u64::from(row[196] & 15) * 10 + u64::from(row[197] & 15);
    let before = number8(at(row, 65)) * 100 + own;
    let amount = cents & !RAISES;
    let after = if cents == amount {
        before.saturating_sub(amount)
    } else {
        before + amount
    };
    if after > 9_999_999_999 {
        return true;
    }
    let pair = |number: u64| PAIRS[(number % 100) as usize];
    let (high, low) = (after / 1_000_000, after / 100 % 10_000);
    row[65..67].copy_from_slice(&pair(high / 100));
    row[67..69].copy_from_slice(&pair(high));
    row[69..71].copy_from_slice(&pair(low / 100));
    row[71..73].copy_from_slice(&pair(low));
    row[196..198].copy_from_slice(&pair(after));
    row[195] = if after == 0 { 0xC4 } else { SPACE };
    false
}

/// Works the lines in order: how many are listed.
fn work(rows: &mut [Row], orders: &[Order], places: &Places, list: &mut [u32]) -> usize {
    let mut listed = 0;
    let mut number = 0u32;
    for block in orders.chunks(BLOCK) {
        let mut own = [NONE; BLOCK];
        for order in block {
            places.fetch(order.key);
        }
        for (order, own) in block.iter().zip(&mut own) {
            *own = places.of(order.key, rows);
            if let Some(row) = rows.get(*own as usize) {
                vector::fetch(&row[65]);
                vector::fetch(&row[195]);
            }
        }
        for (order, own) in block.iter().zip(own) {
            number += 1;
            let refused = order.cents == u64::MAX
                || rows
                    .get_mut(own as usize)
                    .is_none_or(|row| post_to(row, order.cents));
            if refused {
                list[listed] = number;
                listed += 1;
            }
        }
    }
    listed
}

/// Posts a file: how many lines are listed, or the refusal's number.
pub fn post(master: &mut [u8], rows: usize, file: &[u8], list: &mut [u32]) -> Result<u64, u64> {
    let (all, rest) = master.as_chunks_mut::<200>();
    if !rest.is_empty() || rows > all.len() || rows > MOST {
        return Err(3);
    }
    let rows = &mut all[..rows];
    let (records, rest) = file.as_chunks::<240>();
    let places = Places::new(rows, records.len().saturating_sub(1)).ok_or(4u64)?;
    if !rest.is_empty() || records.len() > MOST + 1 {
        return Err(22);
    }
    let (last, lines) = records.split_last().ok_or(22u64)?;
    let (orders, counts) = read_lines(lines);
    if total_wrong(last, counts) {
        return Err(23);
    }
    if list.len() < lines.len() {
        return Err(24);
    }
    Ok(work(rows, &orders, &places, list) as u64)
}
