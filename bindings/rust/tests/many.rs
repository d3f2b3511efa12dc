//! find_many through the wrapper: walks whose answers and comparisons are worked out by hand, each answer against that of find,
//! and each refusal with every number kept.

mod text;

use fantanolive::{find, find_many, Refusal, KEY, NO_PLACE, ROW};
use text::{ebcdic, filled};

const KEPT: u32 = 77;

/// A live row, or a deleted one.
fn row(key: &str, live: bool) -> Vec<u8> {
    let (dollars, status) = if live {
        ("00000025", " ")
    } else {
        ("00000000", "D")
    };
    let mut row = filled(
        ROW,
        &[
            (1, key),
            (13, "000"),
            (31, "SMITH"),
            (66, dollars),
            (79, "000000000000"),
            (196, status),
            (197, "00"),
        ],
    );
    row[194] = 0;
    row
}

/// Three rows, the second deleted, and bytes behind them that are no row.
fn master() -> Vec<u8> {
    [
        row("OH123456789N", true),
        row("OH234567891A", false),
        row("OH345678912A", true),
        vec![0xAA; ROW],
    ]
    .concat()
}

/// Looks the keys up among the first rows of the master: the comparisons, and the places (`None` for a key without a row). Each
/// must be what `find` answers, and the numbers behind them must be kept.
fn walked(rows: usize, keys: &[&str]) -> (u64, Vec<Option<u64>>) {
    let master = master();
    let mut places = vec![KEPT; keys.len() + 2];
    let comparisons = find_many(&master, rows, &ebcdic(&keys.concat()), &mut places);
    let comparisons = comparisons.expect("it is to be carried out");
    assert!(comparisons <= (rows + keys.len()) as u64);
    assert_eq!(places[keys.len()..], [KEPT, KEPT]);
    let place = |&place: &u32| (place != NO_PLACE).then_some(u64::from(place));
    let found: Vec<_> = places[..keys.len()].iter().map(place).collect();
    for (key, place) in keys.iter().zip(&found) {
        let alone = find(&master, rows, &ebcdic(key));
        assert_eq!(alone, place.ok_or(Refusal::NoSuchRow), "{key}");
    }
    (comparisons, found)
}

#[test]
fn a_walk_by_hand() {
    let keys = [
        "OH111111111A", // below all rows: one comparison, with the first
        "OH123456789A", // below the first by its case type: one
        "OH123456789N", // the first: one
        "OH200110001A", // between: the first is passed, the second larger: two
        "OH234567891A", // the second, which is deleted and was not passed: one
        "OH345678912A", // the second is passed, the third equal: two
        "OH345678912N", // the third is passed, and no row left: one
        "OK111111111A", // no row left: none
    ];
    let found = vec![None, None, Some(0), None, Some(1), Some(2), None, None];
    assert_eq!(walked(3, &keys), (9, found));
}

#[test]
fn keys_below_between_and_above() {
    assert_eq!(
        walked(3, &["AK111111111A", "AL111111111A"]),
        (2, vec![None; 2])
    );
    assert_eq!(walked(3, &["OH234567890N"]), (2, vec![None]));
    assert_eq!(
        walked(3, &["OH300110001A", "OH300110001N"]),
        (4, vec![None; 2])
    );
    assert_eq!(
        walked(3, &["OK111111111A", "WY111111111A"]),
        (3, vec![None; 2])
    );
}

#[test]
fn an_equal_row_is_met_again() {
    let keys = ["OH123456789N", "OH234567891A", "OH345678912A"];
    assert_eq!(walked(3, &keys), (5, vec![Some(0), Some(1), Some(2)]));
    assert_eq!(walked(1, &keys), (2, vec![Some(0), None, None]));
    assert_eq!(walked(3, &keys[2..]), (3, vec![Some(2)]));
}

#[test]
fn no_rows_and_no_keys() {
    assert_eq!(
        walked(0, &["OH123456789N", "OH234567891A"]),
        (0, vec![None; 2])
    );
    assert_eq!(walked(3, &[]), (0, vec![]));
    assert_eq!(walked(0, &[]), (0, vec![]));
    assert_eq!(find_many(&[], 0, &[], &mut []), Ok(0));
}

#[test]
fn as_many_places_as_keys() {
    let keys = ebcdic("OH123456789NOH234567891A");
    let mut places = [KEPT; 2];
    assert_eq!(find_many(&master(), 3, &keys, &mut places), Ok(3));
    assert_eq!(places, [0, 1]);
}

#[test]
fn refusals_of_find_many_in_order() {
    let refused = |rows, keys: &str, length: usize| {
        let mut places = vec![KEPT; length];
        let refusal = find_many(&master(), rows, &ebcdic(keys), &mut places);
        assert!(places.iter().all(|&place| place == KEPT));
        refusal.expect_err("it is to be refused").number()
    };
    let (low, high) = ("OH123456789A", "OH123456789N");
    assert_eq!(refused(5, "OH", 0), 3);
    assert_eq!(refused(usize::MAX, "OH", 0), 3);
    assert_eq!(refused(4, "OH", 0), 4);
    // not whole keys, an unsound one (state, SSN, case type) wherever it stands, twice the same, falling
    assert_eq!(refused(3, &high[..KEY - 1], 5), 27);
    assert_eq!(refused(3, "OH123456789NO", 5), 27);
    assert_eq!(refused(3, "OO123456789N", 5), 27);
    assert_eq!(refused(3, "OH000456789N", 5), 27);
    assert_eq!(refused(3, "OH123456789B", 5), 27);
    assert_eq!(refused(3, &[low, high, "OH666456789N"].concat(), 5), 27);
    assert_eq!(refused(3, &[high, high].concat(), 5), 27);
    assert_eq!(refused(3, &[high, low].concat(), 5), 27);
    assert_eq!(refused(3, &[low, "OK111111111A", high].concat(), 5), 27);
    // 27 before 28
    assert_eq!(refused(3, &[high, low].concat(), 1), 27);
    assert_eq!(refused(3, &[low, high].concat(), 1), 28);
    assert_eq!(refused(3, high, 0), 28);
}
