//! Applying, with and without a journal, and taking back.

use std::cell::Cell;

use fantanolive::raw;
use generator::bulk;
use generator::journal::enough;
use generator::records::RECORD;
use generator::rng::Rng;
use sparse::Mapping;

use super::setting::{Cost, Setting, ROW};
use crate::input::{scattered, STATE};

/// What a batch gets and writes.
struct Lent {
    master: Mapping,
    rows: usize,
    batch: Mapping,
    verdicts: Mapping,
    /// Nothing is rejected: one record of it is written.
    rejects: Mapping,
    journal: Mapping,
    /// The result of a batch with a journal.
    result: [u64; 6],
}

const LIST: [u8; 9] = [0xF0, 0xF0, 0xF1, 0xF0, 0xF0, 0xF2, 0xF0, 0xF0, 0xF3];

impl Lent {
    fn new(setting: &Setting, master: Mapping, rows: usize, batch: Mapping) -> Lent {
        let details = batch.len() / RECORD - 1;
        Lent {
            master,
            rows,
            batch,
            verdicts: setting.filled(8 * details),
            rejects: setting.zeros((details + 1) * RECORD),
            journal: setting.zeros(0),
            result: [0; 6],
        }
    }

    fn library(&mut self) {
        let mut result = [0; 5];
        let answer = raw::apply(
            &mut self.master,
            self.rows,
            &self.batch,
            &LIST,
            2007,
            self.verdicts.numbers(),
            &mut self.rejects,
            &mut result,
        );
        assert_eq!((answer, result[0]), (0, self.details()), "not all accepted");
    }

    fn speed(&mut self) {
        let done = speed::apply(
            &mut self.master,
            self.rows,
            &self.batch,
            &LIST,
            2007,
            self.verdicts.numbers(),
            &mut self.rejects,
        );
        assert_eq!(done.map(|result| result[0]), Ok(self.details()));
    }

    fn journaled(&mut self) {
        let answer = raw::apply_journaled(
            &mut self.master,
            self.rows,
            &self.batch,
            &LIST,
            2007,
            self.verdicts.numbers(),
            &mut self.rejects,
            &mut self.journal,
            &mut self.result,
        );
        assert_eq!((answer, self.result[0]), (0, self.details()));
    }

    fn take_back(&mut self) {
        let (mut before, length) = (0, self.result[5] as usize);
        let journal = &self.journal[..length];
        let rows = self.result[4] as usize;
        let answer = raw::take_back(&mut self.master, rows, journal, &mut before);
        assert_eq!((answer, before), (0, self.rows as u64));
    }

    fn details(&self) -> u64 {
        (self.batch.len() / RECORD - 1) as u64
    }

    fn moved(&self) -> Vec<&[u8]> {
        let journal = &self.journal[..self.result[5] as usize];
        vec![&self.master, &self.batch, &self.verdicts, journal]
    }
}

/// A number that differs with the bytes.
fn hash(bytes: &[u8]) -> u64 {
    let (words, _) = bytes.as_chunks::<8>();
    words.iter().fold(1, |sum: u64, &word| {
        (sum ^ u64::from_le_bytes(word))
            .wrapping_mul(0x9E37_79B9_7F4A_7C15)
            .rotate_left(29)
    })
}

/// Measures a batch; both engines leave the same master.
fn cost(setting: &Setting, mut lent: Lent, restore: impl Fn(&mut Lent)) -> Cost {
    let left = Cell::new(0);
    // What the engine before left, seen before it is restored.
    let check = |lent: &mut Lent| {
        let hash = hash(&lent.master);
        assert!(left.get() == 0 || left.get() == hash, "the engines differ");
        left.set(hash);
    };
    let first = Cell::new(true);
    let again = |lent: &mut Lent| {
        if !first.replace(false) {
            check(lent);
        }
        restore(lent);
    };
    let cost = setting.cost(
        &mut lent,
        again,
        Lent::library,
        Some(&Lent::speed),
        Lent::moved,
    );
    check(&mut lent);
    cost
}

/// A change on every row, scattered. Done twice it leaves what it left: nothing has to be restored.
pub fn changes(setting: &Setting) -> Cost {
    let master = setting.master(setting.size, setting.size);
    let lent = Lent::new(setting, master, setting.size, setting.changes());
    cost(setting, lent, |_| {})
}

/// The same in key order.
pub fn in_order(setting: &Setting) -> Cost {
    let master = setting.master(setting.size, setting.size);
    let batch = setting.batch((0..setting.size).map(|place| 2 * place));
    cost(
        setting,
        Lent::new(setting, master, setting.size, batch),
        |_| {},
    )
}

/// No rows, and adds in falling order of key.
pub fn adds(setting: &Setting) -> Cost {
    let batch = setting.batch((0..setting.size).rev().map(|number| 2 * number + 1));
    let master = setting.filled(setting.size * ROW);
    cost(setting, Lent::new(setting, master, 0, batch), |_| {})
}

/// Rows of seven tenths, a change on each and adds between them, scattered.
pub fn mixed(setting: &Setting) -> Cost {
    let (rows, mut numbers, mut rng) = mixed_numbers(setting);
    rng.shuffle(&mut numbers);
    mixed_cost(setting, rows, numbers)
}

/// The same in key order.
pub fn mixed_in_order(setting: &Setting) -> Cost {
    let (rows, mut numbers, _) = mixed_numbers(setting);
    numbers.sort_unstable();
    mixed_cost(setting, rows, numbers)
}

/// The rows, and the key numbers of the details.
fn mixed_numbers(setting: &Setting) -> (usize, Vec<usize>, Rng) {
    let rows = setting.size * 7 / 10;
    let mut rng = Rng::new(7);
    let mut numbers = scattered(&mut rng, rows);
    numbers.truncate(setting.size - rows);
    for number in &mut numbers {
        *number = 2 * *number + 1;
    }
    numbers.extend((0..rows).map(|place| 2 * place));
    (rows, numbers, rng)
}

fn mixed_cost(setting: &Setting, rows: usize, numbers: Vec<usize>) -> Cost {
    let master = setting.master(rows, setting.size);
    let lent = Lent::new(setting, master, rows, setting.batch(numbers.into_iter()));
    let restore = |lent: &mut Lent| bulk::write_rows(&mut lent.master[..rows * ROW], STATE, 2);
    cost(setting, lent, restore)
}

/// A change on every row with a journal.
fn with_journal(setting: &Setting) -> Lent {
    let master = setting.master(setting.size, setting.size);
    let mut lent = Lent::new(setting, master, setting.size, setting.changes());
    lent.journal = setting.filled(enough(setting.size));
    lent
}

pub fn journaled(setting: &Setting) -> Cost {
    let mut lent = with_journal(setting);
    let restore = |lent: &mut Lent| bulk::write_rows(&mut lent.master, STATE, 2);
    setting.cost(&mut lent, restore, Lent::journaled, None, Lent::moved)
}

pub fn take_back(setting: &Setting) -> Cost {
    let mut lent = with_journal(setting);
    let at_entry = hash(&lent.master);
    setting.cost(&mut lent, Lent::journaled, Lent::take_back, None, |lent| {
        assert_eq!(hash(&lent.master), at_entry, "other rows are back");
        vec![&lent.master, &lent.journal[..lent.result[5] as usize]]
    })
}
