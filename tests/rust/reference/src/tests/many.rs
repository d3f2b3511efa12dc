//! Item 9 of document 02: many keys, the comparisons counted by hand.

use super::{live_row, put};
use crate::lookup::find;
use crate::many::{find_many, NONE};
use crate::row::Row;

/// The row of OH 9000000NN N.
fn row(number: u32) -> Row {
    let mut row = live_row();
    put(&mut row, 3, &format!("9000000{number:02}"));
    row
}

fn master(numbers: &[u32]) -> Vec<u8> {
    numbers.iter().flat_map(|&number| row(number)).collect()
}

fn keys(numbers: &[u32]) -> Vec<u8> {
    let key = |&number: &u32| row(number)[..12].to_vec();
    numbers.iter().flat_map(key).collect()
}

/// The places, and the number of comparisons, of keys in a master; single look-ups give the same.
fn found(rows: &[u32], asked: &[u32]) -> (Vec<u32>, u64) {
    let (master, keys) = (master(rows), keys(asked));
    let mut places = vec![77; asked.len() + 1];
    let comparisons = find_many(&master, rows.len(), &keys, &mut places).unwrap();
    assert_eq!(places.pop(), Some(77));
    for (key, &place) in keys.chunks(12).zip(&places) {
        let single = find(&master, rows.len(), key);
        assert_eq!(
            single,
            if place == NONE {
                Err(15)
            } else {
                Ok(u64::from(place))
            }
        );
    }
    assert!(comparisons <= (rows.len() + asked.len()) as u64);
    (places, comparisons)
}

#[test]
fn one_key() {
    let rows = [10, 20, 30];
    // Below all: the first row is larger.
    assert_eq!(found(&rows, &[5]), (vec![NONE], 1));
    // Rows: passed are those before, and one is equal.
    assert_eq!(found(&rows, &[10]), (vec![0], 1));
    assert_eq!(found(&rows, &[20]), (vec![1], 2));
    assert_eq!(found(&rows, &[30]), (vec![2], 3));
    // Between: passed are those before, and one is larger.
    assert_eq!(found(&rows, &[15]), (vec![NONE], 2));
    assert_eq!(found(&rows, &[25]), (vec![NONE], 3));
    // Above all: three are passed, and no row is left to compare with.
    assert_eq!(found(&rows, &[35]), (vec![NONE], 3));
}

#[test]
fn several_keys() {
    let rows = [10, 20, 30];
    // An equal row isn't passed by its key: 1, then 10 again and 20, then 20 again and 30.
    assert_eq!(found(&rows, &[10, 20, 30]), (vec![0, 1, 2], 5));
    // Both are held against 10.
    assert_eq!(found(&rows, &[4, 5]), (vec![NONE; 2], 2));
    assert_eq!(found(&rows, &[5, 10]), (vec![NONE, 0], 2));
    // 10 and 20; 20 again; 20 again and 30; 30 again.
    let between = [15, 16, 21, 22];
    assert_eq!(found(&rows, &between), (vec![NONE; 4], 2 + 1 + 2 + 1));
    // Behind the last row nothing is compared any more.
    assert_eq!(found(&rows, &[31, 32, 33]), (vec![NONE; 3], 3));
    assert_eq!(found(&rows, &[30, 31, 32]), (vec![2, NONE, NONE], 4));
    // 10; 10 and 20; 20 and 30; 30.
    let all = [5, 15, 25, 35];
    assert_eq!(found(&rows, &all), (vec![NONE; 4], 1 + 2 + 2 + 1));
}

#[test]
fn none() {
    assert_eq!(found(&[], &[]), (vec![], 0));
    assert_eq!(found(&[10, 20], &[]), (vec![], 0));
    assert_eq!(found(&[], &[10, 20]), (vec![NONE; 2], 0));
}

#[test]
fn a_deleted_row() {
    let mut master = master(&[10, 20]);
    put(&mut master, 66, "00000000");
    put(&mut master, 196, "D");
    let mut places = [77; 2];
    let done = find_many(&master, 2, &keys(&[10, 20]), &mut places);
    assert_eq!((done, places), (Ok(3), [0, 1]));
}

/// The refusal of keys on two rows, the places kept.
fn refused(keys: &[u8], places: usize) -> u64 {
    let mut places = vec![77; places];
    let answer = find_many(&master(&[10, 20]), 2, keys, &mut places).unwrap_err();
    assert!(places.iter().all(|&place| place == 77));
    answer
}

#[test]
fn refusals() {
    let right = keys(&[10, 20]);
    // A list too short, by one and by all.
    assert_eq!(refused(&right, 1), 28);
    assert_eq!(refused(&right, 0), 28);
    // Order and equal keys.
    assert_eq!(refused(&keys(&[20, 10]), 2), 27);
    assert_eq!(refused(&keys(&[10, 10]), 2), 27);
    assert_eq!(refused(&keys(&[10, 20, 15]), 3), 27);
    // Lengths.
    for length in (1..24).filter(|length| length % 12 != 0) {
        assert_eq!(refused(&right[..length], 2), 27);
    }
    // Unsound keys: state, SSN, case type.
    for (place, text) in [(1, "ZZ"), (3, "666"), (3, "000"), (11, " "), (12, "B")] {
        for start in [0, 12] {
            let mut wrong = right.clone();
            put(&mut wrong[start..], place, text);
            assert_eq!(refused(&wrong, 2), 27);
        }
    }
    // 27 before 28.
    assert_eq!(refused(&keys(&[20, 10]), 0), 27);
    // 3 and 4 come first.
    let mut master = master(&[10, 20]);
    assert_eq!(find_many(&master, 3, &[1], &mut []), Err(3));
    assert_eq!(find_many(&master[..399], 0, &[1], &mut []), Err(3));
    put(&mut master, 197, "  ");
    assert_eq!(find_many(&master, 2, &[1], &mut []), Err(4));
    assert_eq!(find_many(&master, 0, &[1], &mut []), Err(27));
}
