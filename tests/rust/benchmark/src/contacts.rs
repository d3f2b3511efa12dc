//! Contact files of good records read into an empty table, beside one memcpy of the longest file
//! measured in turn with them.

use std::hint::black_box;

use fantanolive::raw;
use generator::contacts::{numbered, Contact, CONTACT};
use generator::rng::Rng;

use crate::clock::seconds;
use crate::{median, print_beside, print_lines, Line, ENGINES};

/// As many as there are states and codes.
const MOST: usize = 54_000;

pub struct Updates {
    copy: f64,
    /// Rising, falling and scattered.
    orders: Vec<Line>,
    /// Falling, each file twice as long as the one before.
    doubled: Vec<Line>,
}

pub fn updating(repetitions: usize) -> Updates {
    let all: Vec<Contact> = (0..MOST).map(numbered).collect();
    let falling: Vec<Contact> = all.iter().rev().copied().collect();
    let mut scattered = all.clone();
    Rng::new(17).shuffle(&mut scattered);
    let file = all.concat();
    let mut to = vec![1; file.len()];
    let mut copies = Vec::new();
    let mut time = |name: String, records: &[Contact]| {
        copies.push(seconds(|| {
            black_box(&mut to[..]).copy_from_slice(black_box(&file));
        }));
        line(name, records, repetitions)
    };
    let orders = [
        ("rising", &all),
        ("falling", &falling),
        ("scattered", &scattered),
    ]
    .into_iter()
    .map(|(order, records)| time(format!("{MOST} contacts, {order}"), records))
    .collect();
    let doubled = [MOST / 8, MOST / 4, MOST / 2, MOST]
        .into_iter()
        .map(|count| time(format!("{count}"), &falling[..count]))
        .collect();
    Updates {
        copy: median(&copies),
        orders,
        doubled,
    }
}

/// The times of one file.
fn line(name: String, records: &[Contact], repetitions: usize) -> Line {
    let file = records.concat();
    let mut one = vec![0; file.len()];
    let (mut two, mut three) = (one.clone(), one.clone());
    let mut first = vec![0; records.len()];
    let (mut second, mut third) = (first.clone(), first.clone());
    let mut times: [Vec<f64>; ENGINES] = Default::default();
    for _ in 0..repetitions {
        one.fill(1);
        two.fill(1);
        three.fill(1);
        let (mut answer, mut result, mut done) = (1, [0; 2], Err(0));
        times[0].push(seconds(|| {
            answer = raw::contacts_update(
                black_box(&mut one),
                0,
                black_box(&file),
                &mut first,
                &mut result,
            );
        }));
        times[1].push(seconds(|| {
            done = reference::contacts::update(black_box(&mut two), 0, &file, &mut second);
        }));
        assert_eq!(answer, 0, "{name} was refused");
        assert!(done == Ok(result) && one == two, "{name} differs");
        times[2].push(seconds(|| {
            done = speed::update(black_box(&mut three), 0, &file, &mut third);
        }));
        assert!(done == Ok(result) && one == three, "{name} differs");
    }
    assert_eq!(one.len(), records.len() * CONTACT);
    Line {
        name,
        times: times.map(|series| Some(median(&series))),
    }
}

impl Updates {
    pub fn print(&self) {
        println!(
            "one memcpy of {} bytes: {:.2} ms; below, x counts such copies",
            MOST * CONTACT,
            self.copy * 1e3
        );
        print_lines("into an empty table", &self.orders, self.copy);
        println!();
        println!(
            "{:<40}{:>22}{:>22}{:>22}",
            "beside rising", "library", "reference", "speed engine"
        );
        for line in &self.orders[1..] {
            print_beside(line, Some(&self.orders[0]), ENGINES);
        }
        println!();
        println!(
            "{:<40}{:>22}{:>22}{:>22}",
            "doubling: n contacts falling", "library", "reference", "speed engine"
        );
        for (at, line) in self.doubled.iter().enumerate() {
            let before = at.checked_sub(1).map(|at| &self.doubled[at]);
            print_beside(line, before, ENGINES);
        }
    }
}
