//! Calls that read a master alone.

use fantanolive::raw;
use generator::bulk;
use generator::pages::enough;
use generator::records::RECORD;
use generator::text::text;
use sparse::Mapping;

use super::setting::{Cost, Setting, ROW};
use crate::input::STATE;

/// A master and what is written.
struct Lent {
    master: Mapping,
    rows: usize,
    out: Mapping,
    keys: Mapping,
    /// What the call before wrote, in short.
    told: u64,
}

impl Lent {
    fn new(setting: &Setting, out: usize) -> Lent {
        Lent {
            master: setting.master(setting.size, setting.size),
            rows: setting.size,
            out: setting.filled(out),
            keys: setting.zeros(0),
            told: 0,
        }
    }

    /// The engine before told the same, if there was one.
    fn tell(&mut self, told: u64) {
        assert!(self.told == 0 || self.told == told, "the engines differ");
        self.told = told;
    }

    fn moved(&self) -> Vec<&[u8]> {
        vec![&self.master, &self.keys, &self.out]
    }
}

/// The key of the row at a third.
pub fn find(setting: &Setting) -> Cost {
    let mut lent = Lent::new(setting, 0);
    let third = setting.size / 3 * ROW;
    let key = lent.master[third..third + 12].to_vec();
    let library = |lent: &mut Lent| {
        let mut place = 0;
        assert_eq!(raw::find(&lent.master, lent.rows, &key, &mut place), 0);
        lent.tell(place);
    };
    let speed = |lent: &mut Lent| {
        let place = speed::find(&lent.master, lent.rows, &key).expect("there is such a row");
        lent.tell(place);
    };
    setting.cost(&mut lent, |_| {}, library, Some(&speed), Lent::moved)
}

pub fn reconcile(setting: &Setting) -> Cost {
    let mut lent = Lent::new(setting, (setting.size + 1) * RECORD);
    let date = text("20261115");
    let library = |lent: &mut Lent| {
        let Lent {
            master, rows, out, ..
        } = lent;
        let mut records = 0;
        assert_eq!(
            raw::reconcile(master, *rows, &STATE, &date, out, &mut records),
            0
        );
        lent.tell(records);
    };
    let speed = |lent: &mut Lent| {
        let Lent {
            master, rows, out, ..
        } = lent;
        let done = speed::reconcile(master, *rows, &STATE, &date, out);
        lent.tell(done.expect("there is room"));
    };
    setting.cost(&mut lent, |_| {}, library, Some(&speed), Lent::moved)
}

pub fn pages(setting: &Setting) -> Cost {
    let mut lent = Lent::new(setting, enough(setting.size));
    let library = |lent: &mut Lent| {
        let mut pages = 0;
        assert_eq!(
            raw::pages(&lent.master, lent.rows, &mut lent.out, &mut pages),
            0
        );
        lent.tell(pages);
    };
    setting.cost(&mut lent, |_| {}, library, None, Lent::moved)
}

/// The key of every row.
pub fn find_many(setting: &Setting) -> Cost {
    let mut lent = Lent::new(setting, 4 * setting.size);
    lent.keys = setting.filled(12 * setting.size);
    for (number, key) in lent.keys.chunks_exact_mut(12).enumerate() {
        key.copy_from_slice(&bulk::key(STATE, 2 * number));
    }
    let library = |lent: &mut Lent| {
        let Lent {
            master,
            rows,
            out,
            keys,
            ..
        } = lent;
        let (places, mut comparisons) = (out.short_numbers(), 0);
        let answer = raw::find_many(master, *rows, keys, places, &mut comparisons);
        assert_eq!(answer, 0);
        lent.tell(comparisons);
    };
    setting.cost(&mut lent, |_| {}, library, None, Lent::moved)
}
