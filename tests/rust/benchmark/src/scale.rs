//! Every call at growing sizes: as many rows as details, the cost of each in nanoseconds, beside the speed engine and one memcpy of all
//! that the call reads and writes. `--scale` measures this alone, `--all` with 16,777,215 too, which takes some 12 GB, `--size N` another
//! size alone; `--huge` lends the buffers on huge pages.

mod applied;
mod files;
mod looked;
mod setting;

use setting::{Cost, Setting};

const SIZES: [usize; 4] = [65_535, 262_144, 1_048_576, 4_194_304];
const MOST: usize = 16_777_215;
/// The sizes between which a cost should grow by no more than `GROWTH`.
const FROM: usize = 262_144;
const TO: usize = 4_194_304;
const GROWTH: f64 = 1.6;

type Call = fn(&Setting) -> Cost;

/// What is measured, and what its cost is divided by.
const CALLS: [(&str, &str, Call); 15] = [
    ("apply, changes", "detail", applied::changes),
    ("apply, changes in key order", "detail", applied::in_order),
    ("apply, changes, journal", "detail", applied::journaled),
    ("apply, adds", "detail", applied::adds),
    ("apply, mixed", "detail", applied::mixed),
    (
        "apply, mixed in key order",
        "detail",
        applied::mixed_in_order,
    ),
    ("find", "row", looked::find),
    ("reconcile", "row", looked::reconcile),
    ("post", "line", files::post),
    ("post, in key order", "line", files::post_in_order),
    ("pages", "row", looked::pages),
    ("find_many", "key", looked::find_many),
    ("take_back", "detail", applied::take_back),
    ("merge", "detail", files::merge),
    ("totals", "detail", files::totals),
];

/// What to measure, as the command line names it.
pub struct Wanted {
    pub all: bool,
    pub huge: bool,
    /// This size alone.
    pub size: Option<usize>,
    /// Only calls with this in their name.
    pub word: Option<String>,
}

impl Wanted {
    fn sizes(&self) -> Vec<usize> {
        match self.size {
            Some(size) => vec![size],
            None => SIZES.into_iter().chain(self.all.then_some(MOST)).collect(),
        }
    }
}

pub fn measure(wanted: &Wanted) {
    println!("machine: {}", crate::machine());
    println!("date: {}", crate::date());
    let pages = if wanted.huge { "huge" } else { "usual" };
    println!("buffers on {pages} pages; nanoseconds of the thread's processor time, the least of some runs");
    println!();
    println!(
        "{:<30}{:>10}{:>8}{:>10}{:>10}{:>10}{:>11}{:>11}",
        "call", "size", "per", "library", "speed", "memcpy", "lib/speed", "lib/memcpy"
    );
    for (name, unit, call) in CALLS {
        if wanted
            .word
            .as_ref()
            .is_some_and(|word| !name.contains(&word[..]))
        {
            continue;
        }
        let costs: Vec<(usize, Cost)> = wanted
            .sizes()
            .into_iter()
            .map(|size| {
                let cost = call(&Setting::new(size, wanted.huge));
                print(name, unit, size, &cost);
                (size, cost)
            })
            .collect();
        print_growth(&costs);
    }
}

fn print(name: &str, unit: &str, size: usize, cost: &Cost) {
    let each = |seconds: f64| seconds * 1e9 / size as f64;
    let speed = cost
        .speed
        .map_or("-".to_string(), |time| format!("{:.1}", each(time)));
    let beside = cost.speed.map_or("-".to_string(), |time| {
        format!("{:.2}", cost.library / time)
    });
    println!(
        "{name:<30}{size:>10}{unit:>8}{:>10.1}{speed:>10}{:>10.1}{beside:>11}{:>11.2}",
        each(cost.library),
        each(cost.copy),
        cost.library / cost.copy
    );
}

/// How the cost of each grows between two sizes.
fn print_growth(costs: &[(usize, Cost)]) {
    let at = |size: usize| costs.iter().find(|cost| cost.0 == size).map(|cost| &cost.1);
    let (Some(low), Some(high)) = (at(FROM), at(TO)) else {
        return;
    };
    let growth = |one: f64, two: f64| two / TO as f64 / (one / FROM as f64);
    let own = growth(low.library, high.library);
    let speed = low.speed.zip(high.speed).map(|(one, two)| growth(one, two));
    let speed = speed.map_or(String::new(), |speed| format!(", speed {speed:.2}"));
    let copy = growth(low.copy, high.copy);
    let above = if own > GROWTH { " (above 1.6)" } else { "" };
    println!(
        "{:<30}growth {FROM} to {TO}: library {own:.2}{above}{speed}, memcpy {copy:.2}",
        ""
    );
}
