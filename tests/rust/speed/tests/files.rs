//! Posting, contacts and conversion: the speed engine against the reference, every byte, on random
//! cases, right and damaged.

use generator::contacts::{giant as many_contacts, update_case, wild_update};
use generator::files::convert_case;
use generator::posting::{giant as many_lines, post_case, wild};
use generator::rng::{mix, Rng};
use generator::{ConvertCase, Direction, PostCase, UpdateCase};

fn posts(case: PostCase) -> bool {
    let (mut one, mut two) = (case.clone(), case);
    let speed = speed::post(&mut one.master, one.rows, &one.file, &mut one.list);
    let reference = reference::post(&mut two.master, two.rows, &two.file, &mut two.list);
    speed == reference && one == two
}

fn updates(case: UpdateCase) -> bool {
    let (mut one, mut two) = (case.clone(), case);
    let speed = speed::update(&mut one.table, one.count, &one.file, &mut one.faulty);
    let reference =
        reference::contacts::update(&mut two.table, two.count, &two.file, &mut two.faulty);
    speed == reference && one == two
}

fn converts(case: ConvertCase) -> bool {
    let (mut one, mut two) = (case.out.clone(), case.out);
    let (speed, reference) = match case.direction {
        Direction::ToEbcdic => (
            speed::to_ebcdic(&case.input, &mut one),
            reference::to_ebcdic(&case.input, &mut two),
        ),
        Direction::ToAscii => (
            speed::to_ascii(&case.input, &mut one),
            reference::to_ascii(&case.input, &mut two),
        ),
    };
    let reference = reference.map_err(|refusal| match refusal {
        reference::code_page::Refusal::NoCounterpart(place) => Some(place),
        reference::code_page::Refusal::TooShort => None,
    });
    speed == reference && one == two
}

/// A case for each seed, from one after another on.
fn all<C>(count: u64, kind: u64, case: impl Fn(&mut Rng) -> C, same: impl Fn(C) -> bool) {
    for number in 0..count {
        let seed = mix(kind << 40 | number);
        assert!(same(case(&mut Rng::new(seed))), "case {seed}");
    }
}

#[test]
fn posting() {
    all(20_000, 2, post_case, posts);
    all(2000, 3, wild, posts);
    all(3, 4, many_lines, posts);
}

#[test]
fn contacts() {
    all(20_000, 5, update_case, updates);
    all(2000, 6, wild_update, updates);
    all(3, 7, many_contacts, updates);
}

#[test]
fn conversion() {
    all(5000, 8, convert_case, converts);
}

/// Every byte, among others and alone.
#[test]
fn single_bytes() {
    for direction in [Direction::ToEbcdic, Direction::ToAscii] {
        for byte in 0..=255 {
            for length in [1, 31, 32, 127, 128, 129, 300] {
                let mut input = generator::files::accepted(&mut Rng::new(5), direction, length);
                input[length - 1] = byte;
                let out = vec![1; length];
                let case = ConvertCase {
                    direction,
                    input,
                    out,
                    place: 0,
                };
                assert!(converts(case), "byte {byte} at the end of {length}");
            }
        }
    }
}
