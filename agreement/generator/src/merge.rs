//! Cases for merging two batches: mostly of one state, sums around eleven digits, and the damages
//! that the refusals name in either input or both.

use crate::bulk;
use crate::cases::{damage_batch_length, damage_control, damage_totals};
use crate::records::{batch, detail, Record, RECORD};
use crate::rng::Rng;
use crate::text::{digits, put};
use crate::wild;
use crate::world::World;

#[derive(Clone, Debug, PartialEq, Eq)]
pub struct MergeCase {
    pub first: Vec<u8>,
    pub second: Vec<u8>,
    pub out: Vec<u8>,
    pub records: u64,
}

fn size(rng: &mut Rng) -> usize {
    match rng.below(10) {
        0 | 1 => 0,
        2..=7 => rng.between(1, 6),
        _ => rng.between(7, 40),
    }
}

pub fn merge_case(rng: &mut Rng) -> MergeCase {
    match rng.below(300) {
        0..=4 => {
            let two = giant(rng);
            right_case(rng, two)
        }
        5..=20 => {
            let two = wide(rng);
            right_case(rng, two)
        }
        21..=28 => wild_case(rng),
        _ => {
            let two = usual(rng);
            let mut case = right_case(rng, two);
            damage_case(rng, &mut case);
            case
        }
    }
}

/// Two right inputs with room for the result.
fn right_case(rng: &mut Rng, (state, [first, second]): Two) -> MergeCase {
    let enough = RECORD * (first.len() + second.len() + 1);
    let spare = rng.pick(&[0, 0, 1, 300]);
    MergeCase {
        first: batch(state, &first),
        second: batch(state, &second),
        out: rng.bytes(enough + spare),
        records: rng.number(),
    }
}

/// Another state, a shorter output, and faults of the inputs, each now and then.
fn damage_case(rng: &mut Rng, case: &mut MergeCase) {
    let enough = case.first.len() + case.second.len() - RECORD;
    if rng.percent(6) {
        let start = case.second.len() - RECORD;
        put(&mut case.second[start..], 1, &[0xE6, 0xE8]);
    }
    match rng.below(12) {
        0 => case.out.truncate(enough - 1),
        1 => case.out.truncate(rng.below(enough)),
        _ => {}
    }
    match rng.below(10) {
        0 => damage(rng, &mut case.first),
        1 => damage(rng, &mut case.second),
        2 => {
            damage(rng, &mut case.first);
            damage(rng, &mut case.second);
        }
        _ => {}
    }
}

/// The details of two batches of a state.
type Two = ([u8; 2], [Vec<Record>; 2]);

fn usual(rng: &mut Rng) -> Two {
    let entry = rng.below(6);
    let mut world = World::new(rng, entry, 4);
    let care = rng.pick(&[50, 80, 100]);
    let mut details = || {
        let count = size(rng);
        (0..count).map(|_| detail(rng, &mut world, care)).collect()
    };
    let both = [details(), details()];
    (world.state, both)
}

/// Sums of one case type around the eleven digits that a total can hold.
fn wide(rng: &mut Rng) -> Two {
    let state = [0xD6, 0xC8];
    let number = rng.below(2);
    let details = |count: usize| {
        let mut record = bulk::add(state, number);
        put(&mut record, 65, &[0xF9; 8]);
        vec![record; count]
    };
    let first = rng.between(300, 999);
    let mut both = [details(first), details(1000 - first)];
    // 1,000 times 99,999,999 lack 999 to the most that there can be.
    let mut rest = bulk::add(state, number);
    let lacking = rng.pick(&[998, 999, 999, 1000, 1001]);
    put(&mut rest, 65, &digits(lacking, 8));
    both[1].push(rest);
    (state, both)
}

/// About 65,536 details together.
fn giant(rng: &mut Rng) -> Two {
    let state = [0xD6, 0xC8];
    let both = bulk::SIXTEEN_BITS - 1 + rng.below(3);
    let first = rng.pick(&[0, 1, 30_000, 32_768]);
    let record = bulk::change(rng, state, 2, b"MCL");
    (state, [vec![record; first], vec![record; both - first]])
}

fn damage(rng: &mut Rng, batch: &mut Vec<u8>) {
    match rng.below(6) {
        0 => damage_batch_length(rng, batch),
        1..=3 => damage_control(rng, batch),
        4 => damage_totals(rng, batch, 6, 9, 2),
        _ => damage_totals(rng, batch, 24, 11, 2),
    }
}

/// Buffers of any length with any bytes.
fn wild_case(rng: &mut Rng) -> MergeCase {
    MergeCase {
        first: wild::bytes(rng),
        second: wild::bytes(rng),
        out: wild::bytes(rng),
        records: rng.number(),
    }
}
