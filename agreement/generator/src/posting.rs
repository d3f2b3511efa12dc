//! Cases for posting: lines on few rows with amounts around their balances, every kind of bad
//! field, and the damages that refusals 3, 4 and 22 to 24 name; and masters of the old row for the
//! conversion.

use std::collections::BTreeMap;

use crate::bulk;
use crate::cases::{damage_length, damage_rows};
use crate::rng::Rng;
use crate::rows::{old_rows, rows, ROW};
use crate::text::{digits, number, put, put_text, EDGES, SPACE};
use crate::world::{Key, World};

pub const LINE: usize = 240;
pub type Line = [u8; LINE];
const MOST_BALANCE: u64 = 9_999_999_999;
/// The most that eleven digits hold.
const MOST_AMOUNT: u64 = 99_999_999_999;

#[derive(Clone, Debug, PartialEq, Eq)]
pub struct CentsCase {
    pub master: Vec<u8>,
    pub rows: usize,
}

#[derive(Clone, Debug, PartialEq, Eq)]
pub struct PostCase {
    pub master: Vec<u8>,
    pub rows: usize,
    pub file: Vec<u8>,
    pub list: Vec<u32>,
    pub listed: u64,
}

/// A master of old rows, or now and then one that has cents already.
pub fn cents_case(rng: &mut Rng) -> CentsCase {
    let entry = size(rng);
    let world = World::new(rng, entry, 1);
    let mut master = if rng.percent(90) {
        old_rows(rng, &world)
    } else {
        rows(rng, &world)
    };
    let more = ROW * rng.below(3);
    master.extend(rng.bytes(more));
    let mut case = CentsCase {
        rows: world.known.len(),
        master,
    };
    if rng.percent(15) {
        damage_length(rng, &mut case.master, &mut case.rows);
    }
    if rng.percent(25) {
        damage_rows(rng, &mut case.master, case.rows);
    }
    case
}

fn size(rng: &mut Rng) -> usize {
    match rng.below(10) {
        0 => 0,
        1..=5 => rng.between(1, 4),
        6..=8 => rng.between(5, 30),
        _ => rng.between(31, 200),
    }
}

/// The keys that lines are drawn from, and what the rows owe by the generator's own reckoning.
struct Book {
    keys: Vec<Key>,
    balances: BTreeMap<Key, u64>,
}

impl Book {
    fn new(rng: &mut Rng, world: &World, master: &[u8]) -> Book {
        let mut balances = BTreeMap::new();
        for row in master.chunks_exact(ROW).take(world.known.len()) {
            let owed = |from: usize, to: usize| number(&row[from - 1..to]).unwrap_or(0);
            let mut key = [SPACE; 12];
            key.copy_from_slice(&row[..12]);
            balances.insert(key, owed(66, 73) * 100 + owed(197, 198));
        }
        let mut keys: Vec<Key> = balances.keys().copied().collect();
        rng.shuffle(&mut keys);
        keys.truncate(rng.between(1, 8));
        if keys.is_empty() || rng.percent(30) {
            keys.extend(&world.fresh);
        }
        if rng.percent(20) {
            keys.extend(&world.unsound[..1]);
        }
        Book { keys, balances }
    }

    fn line(&mut self, rng: &mut Rng) -> Line {
        let mut line = [SPACE; LINE];
        if rng.percent(30) {
            rng.fill(&mut line);
        }
        let key = rng.pick(&self.keys);
        put(&mut line, 1, &key[..2]);
        put(&mut line, 6, &key[2..11]);
        line[106] = key[11];
        let balance = self.balances.get(&key).copied().unwrap_or(0);
        let (collected, adjusted) = match rng.below(20) {
            0 => (0, 0),
            1 => (rng.between(1, 500) as u64, rng.between(1, 500) as u64),
            2..=7 => (0, raise(rng, balance)),
            _ => (collection(rng, balance), 0),
        };
        put(&mut line, 76, &amount(rng, collected));
        put(&mut line, 87, &amount(rng, adjusted));
        if rng.percent(12) {
            spoil(rng, &mut line);
        } else if balance > 0 && balance + adjusted <= MOST_BALANCE {
            let after = (balance + adjusted).saturating_sub(collected);
            self.balances.insert(key, after);
        }
        line
    }
}

/// A collection below, at or above a balance.
fn collection(rng: &mut Rng, balance: u64) -> u64 {
    match rng.below(12) {
        0 => balance,
        1 => balance + 1,
        2 => balance.saturating_sub(1),
        3 => balance + rng.between(1, 100_000) as u64,
        4 => rng.pick(&[MOST_AMOUNT, MOST_BALANCE, MOST_BALANCE + 1]),
        5 => balance % 100,
        6 => balance - balance % 100,
        _ => rng.number() % (balance / 3 + 2),
    }
}

/// An adjustment that is small, or reaches up to the limit and beyond.
fn raise(rng: &mut Rng, balance: u64) -> u64 {
    let room = MOST_BALANCE.saturating_sub(balance);
    match rng.below(8) {
        0 => room,
        1 => room + 1,
        2 => room.saturating_sub(1),
        3 => rng.pick(&[MOST_AMOUNT, MOST_BALANCE, MOST_BALANCE + 1]),
        4 => 100 - balance % 100,
        _ => rng.between(1, 500_000) as u64,
    }
}

/// Eleven digits; the last may have the sign's code.
fn amount(rng: &mut Rng, cents: u64) -> Vec<u8> {
    let mut field = digits(cents, 11);
    if rng.percent(50) {
        field[10] &= 0xCF;
    }
    field
}

/// One or two bad fields, or bytes at the edges.
fn spoil(rng: &mut Rng, line: &mut Line) {
    let field = rng.pick(&[76, 87]);
    match rng.below(7) {
        0 => line[field + 9] = rng.pick(&[0xBF, 0xCA, 0xCF, 0xD0, 0xD5, 0xD9, 0xEF, 0xFA, 0x40]),
        1 => line[field - 1 + rng.below(10)] = rng.pick(&[0xC0, 0xC9, 0xEF, 0xFA, 0x40, 0x60]),
        2 => line[field - 1..field + 10].fill(SPACE),
        3 => line[75..97].fill(SPACE),
        4 => {
            line[85] = rng.pick(&EDGES);
            line[96] = rng.pick(&EDGES);
        }
        5 => line[field - 1 + rng.below(11)] = rng.pick(&EDGES),
        _ => line[rng.pick(&[0, 1, 5, 13, 106])] = rng.pick(&EDGES),
    }
}

/// An amount above zero by the papers' rule.
fn above_zero(field: &[u8]) -> bool {
    let mut field = field.to_vec();
    if (0xC0..=0xC9).contains(&field[10]) {
        field[10] |= 0xF0;
    }
    number(&field).is_some_and(|cents| cents > 0)
}

/// The last record of a file.
pub fn total(lines: &[Line]) -> Line {
    let count = |from: usize| {
        let above = lines
            .iter()
            .filter(|line| above_zero(&line[from - 1..from + 10]));
        above.count() as u64
    };
    let mut last = [SPACE; LINE];
    put_text(&mut last, 6, "TOTAL    ");
    put(&mut last, 35, &digits(count(87), 15));
    put(&mut last, 50, &digits(count(76), 15));
    last
}

pub fn post_case(rng: &mut Rng) -> PostCase {
    let entry = size(rng);
    let world = World::new(rng, entry, 2);
    let mut master = rows(rng, &world);
    let mut book = Book::new(rng, &world, &master);
    let more = ROW * rng.below(3);
    master.extend(rng.bytes(more));
    let lines: Vec<Line> = (0..size(rng)).map(|_| book.line(rng)).collect();
    let mut last = total(&lines);
    if rng.percent(30) {
        // What isn't looked at.
        rng.fill(&mut last[..5]);
        rng.fill(&mut last[14..34]);
        rng.fill(&mut last[64..]);
    }
    let mut file = lines.concat();
    file.extend_from_slice(&last);
    let numbers = lines.len() + rng.pick(&[0, 0, 1, 5]);
    let mut case = PostCase {
        rows: world.known.len(),
        master,
        file,
        list: (0..numbers).map(|_| rng.number() as u32).collect(),
        listed: rng.number(),
    };
    let faults = match rng.below(100) {
        0..=59 => 0,
        60..=89 => 1,
        _ => rng.between(2, 3),
    };
    for _ in 0..faults {
        damage_post(rng, &mut case, lines.len());
    }
    case
}

fn damage_post(rng: &mut Rng, case: &mut PostCase, lines: usize) {
    match rng.below(8) {
        0 => damage_length(rng, &mut case.master, &mut case.rows),
        1 => damage_rows(rng, &mut case.master, case.rows),
        2 => match rng.below(5) {
            0 | 4 => case.file.clear(),
            1 => case.file.push(SPACE),
            2 => {
                case.file.pop();
            }
            _ => {
                let length = rng.below(case.file.len() + 1);
                case.file.truncate(length);
            }
        },
        3..=6 => damage_total(rng, &mut case.file),
        _ => case.list.truncate(lines.saturating_sub(1)),
    }
}

fn damage_total(rng: &mut Rng, file: &mut [u8]) {
    let Some(start) = file.len().checked_sub(LINE) else {
        return;
    };
    let last = &mut file[start..];
    match rng.below(8) {
        0 | 1 => put_text(
            last,
            6,
            rng.pick(&["TOTALS   ", "total    ", "         ", "TOTAL   X"]),
        ),
        2 => last[5 + rng.below(9)] = rng.pick(&EDGES),
        3 => last[34 + rng.below(30)] = rng.pick(&EDGES),
        4 => last[rng.pick(&[34, 48, 49, 63])] = rng.pick(&[0x40, 0xC0, 0xF1, 0xFA]),
        5 => last[34..64].rotate_left(15),
        _ => {
            // One more or less at the last place.
            let place = rng.pick(&[48, 63]);
            last[place] = 0xF0 + (last[place] & 15).wrapping_add(rng.pick(&[1, 9])) % 10;
        }
    }
}

/// Right lines by key number: collections, and a few adjustments.
pub fn numbered(rng: &mut Rng, state: [u8; 2], number: usize) -> Line {
    let mut line = [SPACE; LINE];
    let key = bulk::key(state, number);
    put(&mut line, 1, &state);
    put(&mut line, 6, &key[2..11]);
    line[106] = key[11];
    let cents = rng.between(1, 20_000) as u64;
    let (collected, adjusted) = if rng.percent(90) {
        (cents, 0)
    } else {
        (0, cents)
    };
    put(&mut line, 76, &amount(rng, collected));
    put(&mut line, 87, &amount(rng, adjusted));
    line
}

/// About 65,536 lines.
pub fn giant(rng: &mut Rng) -> PostCase {
    let state = [0xD6, 0xC8];
    let lines = bulk::SIXTEEN_BITS - 1 + rng.below(3);
    let rows = rng.pick(&[1, 40, bulk::SIXTEEN_BITS]);
    let lines: Vec<Line> = (0..lines)
        .map(|_| {
            let number = 2 * rng.below(rows);
            numbered(rng, state, number)
        })
        .collect();
    let mut file = lines.concat();
    file.extend_from_slice(&total(&lines));
    PostCase {
        master: bulk::rows(state, rows, 2),
        rows,
        file,
        list: vec![7; lines.len()],
        listed: rng.number(),
    }
}

/// Buffers of any length with any bytes.
pub fn wild(rng: &mut Rng) -> PostCase {
    let any = |rng: &mut Rng, most: usize| {
        let length = match rng.below(3) {
            0 => 0,
            1 => rng.pick(&[200, 240, 400, 480]),
            _ => rng.below(most),
        };
        rng.bytes(length)
    };
    let numbers = rng.below(4);
    PostCase {
        master: any(rng, 500),
        rows: rng.pick(&[0, 1, 2, usize::MAX]),
        file: any(rng, 900),
        list: vec![7; numbers],
        listed: rng.number(),
    }
}
