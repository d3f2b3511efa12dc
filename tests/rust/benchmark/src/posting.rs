//! Collection files posted to a master, beside one memcpy of the master measured in turn with them.

use std::hint::black_box;

use fantanolive::raw;
use generator::bulk;
use generator::posting::{numbered, total, Line as Collection};
use generator::rng::Rng;

use crate::clock::seconds;
use crate::input::MANY;
use crate::{median, print_beside, print_lines, Line, ENGINES};

const STATE: [u8; 2] = [0xD6, 0xC8];

pub struct Postings {
    copy: f64,
    orders: Vec<Line>,
    /// On as many rows as lines, scattered, each file twice as long as the one before.
    doubled: Vec<Line>,
}

/// Lines on the rows given by their places.
fn lines(places: &[usize]) -> Vec<Collection> {
    let mut rng = Rng::new(19);
    let line = |&place: &usize| numbered(&mut rng, STATE, 2 * place);
    places.iter().map(line).collect()
}

/// The places of rows in scattered order.
fn scattered(rows: usize) -> Vec<usize> {
    let mut places: Vec<usize> = (0..rows).collect();
    Rng::new(23).shuffle(&mut places);
    places
}

pub fn posting(repetitions: usize) -> Postings {
    let mut copies = Vec::new();
    let mut time = |name: String, rows: usize, places: &[usize]| {
        line(name, rows, &lines(places), repetitions, &mut copies)
    };
    let rising: Vec<usize> = (0..MANY).collect();
    let orders = [
        ("rising", rising),
        ("scattered", scattered(MANY)),
        ("all on one row", vec![MANY / 2; MANY]),
    ]
    .into_iter()
    .map(|(order, places)| time(format!("{MANY} rows, {MANY} lines, {order}"), MANY, &places))
    .collect();
    let doubled = [8192, 16_384, 32_768, MANY]
        .into_iter()
        .map(|count| time(format!("{count}"), count, &scattered(count)))
        .collect();
    Postings {
        copy: median(&copies),
        orders,
        doubled,
    }
}

/// The times of one file; those of the copies go to a list.
fn line(
    name: String,
    rows: usize,
    lines: &[Collection],
    repetitions: usize,
    copies: &mut Vec<f64>,
) -> Line {
    let master = bulk::rows(STATE, rows, 2);
    let mut file = lines.concat();
    file.extend_from_slice(&total(lines));
    let mut one = master.clone();
    let (mut two, mut three) = (one.clone(), one.clone());
    let mut first = vec![0; lines.len()];
    let (mut second, mut third) = (first.clone(), first.clone());
    let mut times: [Vec<f64>; ENGINES] = Default::default();
    for _ in 0..repetitions {
        let copy = seconds(|| black_box(&mut one[..]).copy_from_slice(black_box(&master)));
        if rows == MANY {
            copies.push(copy);
        }
        two.copy_from_slice(&master);
        three.copy_from_slice(&master);
        let (mut answer, mut listed, mut done) = (1, 0, Err(0));
        times[0].push(seconds(|| {
            answer = raw::post(
                black_box(&mut one),
                rows,
                black_box(&file),
                &mut first,
                &mut listed,
            );
        }));
        times[1].push(seconds(|| {
            done = reference::post(black_box(&mut two), rows, &file, &mut second);
        }));
        assert_eq!(answer, 0, "{name} was refused");
        assert!(
            done == Ok(listed) && one == two && first == second,
            "{name} differs"
        );
        times[2].push(seconds(|| {
            done = speed::post(black_box(&mut three), rows, &file, &mut third);
        }));
        assert!(
            done == Ok(listed) && one == three && first == third,
            "{name} differs"
        );
    }
    Line {
        name,
        times: times.map(|series| Some(median(&series))),
    }
}

impl Postings {
    pub fn print(&self) {
        println!(
            "one memcpy of {} bytes: {:.2} ms; below, x counts such copies",
            MANY * 200,
            self.copy * 1e3
        );
        print_lines("posting", &self.orders, self.copy);
        println!();
        println!(
            "{:<40}{:>22}{:>22}{:>22}",
            "doubling: n rows, n lines scattered", "library", "reference", "speed engine"
        );
        for (at, line) in self.doubled.iter().enumerate() {
            let before = at.checked_sub(1).map(|at| &self.doubled[at]);
            print_beside(line, before, ENGINES);
        }
    }
}
