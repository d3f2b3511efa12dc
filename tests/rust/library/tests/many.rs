//! Many keys through the library, which random cases seldom reach.

use fantanolive::raw;
use generator::bulk;
use reference::many::NONE;

const STATE: [u8; 2] = [0xD6, 0xC8];
const MANY: usize = 65_537;

/// Answer, comparisons and places by the library; the reference gives the same.
fn found(master: &[u8], rows: usize, keys: &[u8], list: usize) -> (u64, u64, Vec<u32>) {
    let (mut one, mut two, mut comparisons) = (vec![9; list], vec![9; list], 77);
    let answer = raw::find_many(master, rows, keys, &mut one, &mut comparisons);
    let expected = match reference::find_many(master, rows, keys, &mut two) {
        Ok(count) => (0, count),
        Err(number) => (number, 77),
    };
    assert_eq!((answer, comparisons), expected);
    assert!(one == two);
    (answer, comparisons, one)
}

/// The keys of numbers.
fn keys(numbers: impl Iterator<Item = usize>) -> Vec<u8> {
    numbers
        .flat_map(|number| bulk::key(STATE, number))
        .collect()
}

#[test]
fn a_key_for_every_row() {
    let master = bulk::rows(STATE, MANY, 2);
    let keys = keys((0..MANY).map(|at| 2 * at));
    let (answer, comparisons, places) = found(&master, MANY, &keys, MANY + 1);
    // Each row but the last is met by its key and passed by the next.
    assert_eq!((answer, comparisons), (0, 2 * MANY as u64 - 1));
    assert!(places[..MANY].iter().copied().eq(0..MANY as u32));
    assert_eq!(places[MANY], 9);
    assert_eq!(found(&master, MANY, &keys, MANY).0, 0);
    assert_eq!(found(&master, MANY, &keys, MANY - 1).0, 28);
    assert_eq!(found(&master, MANY, &keys, 0).0, 28);
}

#[test]
fn more_keys_than_rows() {
    let master = bulk::rows(STATE, MANY, 2);
    let keys = keys(0..2 * MANY + 10);
    let count = keys.len() / 12;
    let (answer, comparisons, places) = found(&master, MANY, &keys, count);
    // An even number meets its row, an odd one passes it and meets the next.
    assert_eq!((answer, comparisons), (0, 3 * MANY as u64 - 1));
    assert!(comparisons <= (MANY + count) as u64);
    for (number, &place) in places.iter().enumerate() {
        let row = number % 2 == 0 && number < 2 * MANY;
        assert_eq!(place, if row { number as u32 / 2 } else { NONE });
    }
}

#[test]
fn keys_below_and_above() {
    let rows = 1000;
    let master = bulk::rows(STATE, rows, 2);
    let below: Vec<u8> = (0..50).flat_map(|at| bulk::key([0xC1, 0xD2], at)).collect();
    let (answer, comparisons, places) = found(&master, rows, &below, 50);
    assert_eq!((answer, comparisons), (0, 50));
    assert!(places.iter().all(|&place| place == NONE));
    let above = keys(2 * rows..2 * rows + 50);
    let (answer, comparisons, places) = found(&master, rows, &above, 50);
    assert_eq!((answer, comparisons), (0, rows as u64));
    assert!(places.iter().all(|&place| place == NONE));
}

#[test]
fn refusals() {
    let master = bulk::rows(STATE, MANY, 2);
    let right = keys([0, 1, 2].into_iter());
    assert_eq!(found(&master, MANY + 1, &right, 3).0, 3);
    assert_eq!(found(&master, MANY, &right, 3).0, 0);
    assert_eq!(found(&master[..199], 0, &right, 3).0, 3);
    assert_eq!(found(&[], usize::MAX, &[], 0).0, 3);
    let mut unsound = bulk::rows(STATE, 2, 2);
    unsound[395] = 0;
    assert_eq!(found(&unsound, 2, &[1], 0).0, 4);
    assert_eq!(found(&unsound, 1, &[1], 0).0, 27);
    for length in 0..=36 {
        let answer = found(&master[..400], 2, &right[..length], 2).0;
        let expected = match length {
            36 => 28,
            0 | 12 | 24 => 0,
            _ => 27,
        };
        assert_eq!(answer, expected, "{length}");
    }
    let twice = keys([0, 1, 1].into_iter());
    let falling = keys([0, 2, 1].into_iter());
    assert_eq!(found(&master, 2, &twice, 3).0, 27);
    assert_eq!(found(&master, 2, &falling, 0).0, 27);
    assert_eq!(found(&[], 0, &right, 3), (0, 0, vec![NONE; 3]));
    assert_eq!(found(&[], 0, &[], 0), (0, 0, vec![]));
}

#[test]
fn a_key_of_any_bytes() {
    let master = bulk::rows(STATE, 3, 2);
    let right = bulk::key(STATE, 2);
    for place in 0..12 {
        for byte in 0..=255 {
            let mut key = right;
            key[place] = byte;
            let mut single = 0;
            let alone = raw::find(&master, 3, &key, &mut single);
            let (answer, _, places) = found(&master, 3, &key, 1);
            match alone {
                0 => assert_eq!((answer, u64::from(places[0])), (0, single)),
                15 => assert_eq!((answer, places[0]), (0, NONE)),
                _ => assert_eq!((alone, answer), (14, 27)),
            }
        }
    }
}
