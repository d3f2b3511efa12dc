//! Posting, merging and totals.

use std::cell::Cell;

use fantanolive::raw;
use generator::bulk;
use generator::posting::{numbered, total, LINE};
use generator::records::RECORD;
use generator::rng::Rng;
use sparse::Mapping;

use super::setting::{Cost, Setting};
use crate::input::{scattered, STATE};

struct Posting {
    master: Mapping,
    rows: usize,
    file: Mapping,
    list: Mapping,
}

/// A line for every row, scattered.
pub fn post(setting: &Setting) -> Cost {
    posting(setting, scattered(&mut Rng::new(23), setting.size))
}

/// The same in key order.
pub fn post_in_order(setting: &Setting) -> Cost {
    posting(setting, (0..setting.size).collect())
}

fn posting(setting: &Setting, places: Vec<usize>) -> Cost {
    let mut rng = Rng::new(19);
    let mut file = setting.zeros((setting.size + 1) * LINE);
    let (records, _) = file.as_chunks_mut::<LINE>();
    if let Some((last, lines)) = records.split_last_mut() {
        for (line, place) in lines.iter_mut().zip(places) {
            *line = numbered(&mut rng, STATE, 2 * place);
        }
        *last = total(lines);
    }
    let mut lent = Posting {
        master: setting.master(setting.size, setting.size),
        rows: setting.size,
        file,
        list: setting.filled(4 * setting.size),
    };
    let told = Cell::new(None);
    let tell = |listed: u64| {
        assert!(
            told.get().is_none_or(|other| other == listed),
            "the engines differ"
        );
        told.set(Some(listed));
    };
    let library = |lent: &mut Posting| {
        let Posting {
            master,
            rows,
            file,
            list,
        } = lent;
        let mut listed = 0;
        assert_eq!(
            raw::post(master, *rows, file, list.short_numbers(), &mut listed),
            0
        );
        tell(listed);
    };
    let speed = |lent: &mut Posting| {
        let Posting {
            master,
            rows,
            file,
            list,
        } = lent;
        let done = speed::post(master, *rows, file, list.short_numbers());
        tell(done.expect("the file is right"));
    };
    let restore = |lent: &mut Posting| bulk::write_rows(&mut lent.master, STATE, 2);
    setting.cost(&mut lent, restore, library, Some(&speed), |lent| {
        vec![&lent.master, &lent.file, &lent.list]
    })
}

/// Two halves into one.
pub fn merge(setting: &Setting) -> Cost {
    let half = setting.size / 2;
    let numbers = |from: usize, to: usize| (from..to).map(|number| 2 * number);
    let first = setting.batch(numbers(0, half));
    let second = setting.batch(numbers(half, setting.size));
    let mut out = setting.filled((setting.size + 1) * RECORD);
    let library = |out: &mut Mapping| {
        let mut records = 0;
        assert_eq!(raw::merge(&first, &second, out, &mut records), 0);
    };
    setting.cost(
        &mut out,
        |_| {},
        library,
        None,
        |out| {
            // What is read comes to as many bytes as what is written.
            vec![out, out]
        },
    )
}

pub fn totals(setting: &Setting) -> Cost {
    let mut batch = setting.batch((0..setting.size).map(|number| 2 * number));
    let library = |batch: &mut Mapping| {
        let mut totals = [0; 4];
        assert_eq!(raw::totals(batch, &mut totals), 0);
        assert_eq!(totals[0], setting.size as u64);
    };
    setting.cost(&mut batch, |_| {}, library, None, |batch| vec![batch])
}
