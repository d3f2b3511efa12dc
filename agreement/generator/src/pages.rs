//! Cases for case pages: live rows that fill pages exactly or nearly, deleted ones between them, and
//! the damages that refusals 3, 4 and 31 name.

use crate::cases::{damage_length, damage_rows};
use crate::rng::Rng;
use crate::rows::{rows, ROW};
use crate::wild;
use crate::world::World;

#[derive(Clone, Debug, PartialEq, Eq)]
pub struct PagesCase {
    pub master: Vec<u8>,
    pub rows: usize,
    pub out: Vec<u8>,
    pub pages: u64,
}

/// The bytes of the pages of so many live rows.
pub fn enough(live: usize) -> usize {
    132 * (live + 2 * live.div_ceil(58))
}

fn live_rows(rng: &mut Rng) -> usize {
    match rng.below(4) {
        0 | 1 => rng.pick(&[0, 1, 57, 58, 59, 116, 117]),
        2 => rng.between(2, 20),
        _ => rng.between(40, 200),
    }
}

/// A world of so many live rows, with deleted ones between them.
fn world(rng: &mut Rng, live: usize) -> World {
    let deleted = match rng.below(3) {
        0 => 0,
        1 => rng.below(6),
        _ => rng.below(70),
    };
    let mut world = World::new(rng, live + deleted + 20, 0);
    while world.known.len() > live + deleted {
        let at = rng.below(world.known.len());
        world.known.remove(at);
    }
    let mut flags: Vec<bool> = (0..world.known.len()).map(|at| at < live).collect();
    rng.shuffle(&mut flags);
    for (known, live) in world.known.iter_mut().zip(flags) {
        known.live = live;
    }
    world
}

pub fn pages_case(rng: &mut Rng) -> PagesCase {
    if rng.percent(3) {
        return wild_case(rng);
    }
    let wanted = live_rows(rng);
    let world = world(rng, wanted);
    let mut master = rows(rng, &world);
    for row in master.chunks_exact_mut(ROW) {
        if rng.percent(10) {
            row[194] = rng.pick(&[0x00, 0xFF]);
        }
    }
    let more = ROW * rng.below(3);
    master.extend(rng.bytes(more));
    let live = world.known.iter().filter(|known| known.live).count();
    let enough = enough(live);
    let length = match rng.below(12) {
        0 | 1 => enough.saturating_sub(1),
        2 => rng.below(enough + 1),
        // Room for nothing, or for the lines alone.
        3 => rng.pick(&[0, live * 132]),
        4..=6 => enough + rng.below(300),
        _ => enough,
    };
    let mut case = PagesCase {
        rows: world.known.len(),
        master,
        out: rng.bytes(length),
        pages: rng.number(),
    };
    if rng.percent(7) {
        damage_length(rng, &mut case.master, &mut case.rows);
    }
    if rng.percent(7) {
        damage_rows(rng, &mut case.master, case.rows);
    }
    case
}

/// Buffers of any length with any bytes.
fn wild_case(rng: &mut Rng) -> PagesCase {
    PagesCase {
        master: wild::bytes(rng),
        rows: wild::count(rng),
        out: wild::bytes(rng),
        pages: rng.number(),
    }
}
