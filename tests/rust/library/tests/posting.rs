//! Posting many lines and converting many rows through the library, which random cases seldom reach.

use fantanolive::raw;
use generator::bulk;
use generator::posting::{numbered, total, Line};
use generator::rng::Rng;

const STATE: [u8; 2] = [0xD6, 0xC8];
/// More than sixteen bits count.
const MANY: usize = 65_537;

/// Answer, result, master and list of a file posted to a master.
fn posted(master: &[u8], file: &[u8], list: usize) -> (u64, u64, Vec<u8>, Vec<u32>) {
    let (mut master, mut lines, mut listed) = (master.to_vec(), vec![0xEEEE_EEEE; list], 77);
    let rows = master.len() / 200;
    let answer = raw::post(&mut master, rows, file, &mut lines, &mut listed);
    (answer, listed, master, lines)
}

/// The same by the reference.
fn expected(master: &[u8], file: &[u8], list: usize) -> (u64, u64, Vec<u8>, Vec<u32>) {
    let (mut master, mut lines) = (master.to_vec(), vec![0xEEEE_EEEE; list]);
    let rows = master.len() / 200;
    let (answer, listed) = match reference::post(&mut master, rows, file, &mut lines) {
        Ok(listed) => (0, listed),
        Err(number) => (number, 77),
    };
    (answer, listed, master, lines)
}

/// Lines, then the last record.
fn file(lines: &[Line]) -> Vec<u8> {
    [lines.concat(), total(lines).to_vec()].concat()
}

#[test]
fn a_file_of_many_records() {
    let mut rng = Rng::new(1);
    let mut lines: Vec<Line> = (0..MANY)
        .map(|at| numbered(&mut rng, STATE, 2 * at))
        .collect();
    rng.shuffle(&mut lines);
    let file = file(&lines);
    let full = bulk::rows(STATE, MANY, 2);
    for (master, list) in [
        (&full[..], MANY),
        (&full[..], MANY - 1),
        (&full[..200], MANY),
        (&[], 0),
    ] {
        assert!(posted(master, &file, list) == expected(master, &file, list));
    }
    let (answer, listed, _, list) = posted(&[], &file, MANY);
    assert_eq!((answer, listed), (0, MANY as u64));
    assert!(list.iter().copied().eq(1..=MANY as u32));
}

#[test]
fn cents_for_many_rows() {
    let right = bulk::rows(STATE, MANY + 1, 2);
    let mut master = right.clone();
    for row in master.chunks_exact_mut(200) {
        row[196..].fill(0x40);
    }
    let before = master.clone();
    assert_eq!(raw::add_cents(&mut master, MANY + 2), 3);
    assert!(master == before);
    assert_eq!(raw::add_cents(&mut master, MANY), 0);
    let mut rows = master.chunks_exact(200).zip(right.chunks_exact(200));
    assert!(rows
        .clone()
        .take(MANY)
        .all(|(one, two)| { one[..196] == two[..196] && one[196..] == [0xF0, 0xF0, 0x40, 0x40] }));
    assert_eq!(
        rows.next_back().map(|(one, _)| one),
        before.chunks_exact(200).last()
    );
    assert_eq!(raw::add_cents(&mut master, MANY), 4);
}
