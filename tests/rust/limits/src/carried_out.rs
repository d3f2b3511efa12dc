//! Calls carried out with as many records as there can be.

use fantanolive::raw;
use generator::bulk;
use generator::contacts::{numbered, CONTACT};
use generator::journal::enough;
use generator::posting::LINE;
use generator::records::{control, totals as totals_of, Record, RECORD};
use generator::rng::Rng;
use generator::text::{digits, put, put_text};
use reference::row::ROW;
use sparse::Mapping;

use crate::files::total;
use crate::{MOST, STATE};

/// The most that the amounts can come to.
pub fn totals() {
    let mut record = bulk::change(&mut Rng::new(1), STATE, 2, b"M");
    put(&mut record, 65, &[0xF9; 8]);
    let batch = Mapping::closed(&record, MOST, &[0; RECORD]);
    let expected = [MOST as u64, 0, 99_999_999 * MOST as u64, 0];
    let mut given = [0; 4];
    assert_eq!((raw::totals(&batch, &mut given), given), (0, expected));
    assert_eq!(reference::totals(&batch), Ok(expected));
}

/// Five records of one key, of which the third gets 17.
fn five() -> [Record; 5] {
    let change = |kind: &[u8; 1]| bulk::change(&mut Rng::new(1), STATE, 2, kind);
    let mut other = change(b"M");
    put_text(&mut other, 30, "SMYTH");
    [
        bulk::add(STATE, 2),
        change(b"M"),
        other,
        change(b"L"),
        change(b"C"),
    ]
}

/// What a journaled batch is lent, each byte not yet written.
struct Lent {
    master: Mapping,
    verdicts: Vec<u64>,
    rejects: Mapping,
    journal: Mapping,
}

impl Lent {
    fn new(rejected: usize) -> Lent {
        let behind = (MOST + 1 - rejected) * RECORD;
        Lent {
            master: Mapping::zeros(MOST * ROW),
            verdicts: vec![0; MOST],
            // The rejected are alike, so that they may be on the same pages.
            rejects: Mapping::repeated(&[0xEE; RECORD], rejected, behind),
            journal: Mapping::zeros(enough(MOST)),
        }
    }
}

/// As many details as there can be, all of one key: a fifth is rejected.
pub fn details() {
    let (five, fifth) = (five(), MOST / 5);
    let sums = totals_of(&five).map(|total| total * fifth as u64);
    let batch = Mapping::closed(&five.concat(), fifth, &control(STATE, sums));
    assert_eq!(batch.len(), (MOST + 1) * RECORD);
    let list = [0xF0, 0xF0, 0xF2];
    let (mut one, mut result) = (Lent::new(fifth), [77; 6]);
    let given = raw::apply_journaled(
        &mut one.master,
        0,
        &batch,
        &list,
        2007,
        &mut one.verdicts,
        &mut one.rejects,
        &mut one.journal,
        &mut result,
    );
    let rejected = fifth as u64;
    assert_eq!((given, result), (0, [4 * rejected, rejected, 0, 0, 1, 4]));
    assert_eq!(one.journal[..5], [0, 1, 0, 0, 0]);
    assert!(one
        .verdicts
        .chunks_exact(5)
        .all(|five| five == [0, 0, 1 << 17, 0, 0]));
    let mut two = Lent::new(fifth);
    let done = reference::apply_journaled(
        &mut two.master,
        0,
        &batch,
        &list,
        2007,
        &mut two.verdicts,
        &mut two.rejects,
        &mut two.journal,
    );
    let told = done.map(|(counts, length)| (counts.accepted, counts.rejected, counts.rows, length));
    assert_eq!(told, Ok((4 * rejected, rejected, 1, 4)));
    assert!(one.verdicts == two.verdicts);
    assert!(one.master[..] == two.master[..] && one.rejects[..] == two.rejects[..]);
    assert!(one.journal[..] == two.journal[..]);
}

/// Good records among faulty ones, the last among them, and one of the same key before it.
pub fn contacts() {
    let mut file = Mapping::zeros(MOST * CONTACT);
    for (number, key) in [
        (1, 7),
        (65_537, 3),
        (8_388_609, 5),
        (MOST - 1, 53_999),
        (MOST, 7),
    ] {
        let mut record = numbered(key);
        put(&mut record, 38, &digits(number as u64 % 10_000, 4));
        file[(number - 1) * CONTACT..][..CONTACT].copy_from_slice(&record);
    }
    let (mut one, mut two) = (
        Mapping::zeros(MOST * CONTACT),
        Mapping::zeros(MOST * CONTACT),
    );
    let (mut given, mut expected, mut result) = (vec![0; MOST], vec![0; MOST], [0; 2]);
    assert_eq!(
        raw::contacts_update(&mut one, 0, &file, &mut given, &mut result),
        0
    );
    assert_eq!(result, [4, MOST as u64 - 5]);
    assert_eq!(
        reference::contacts::update(&mut two, 0, &file, &mut expected),
        Ok(result)
    );
    assert!(given == expected && one[..] == two[..]);
    assert_eq!(given[MOST - 6], MOST as u32 - 2);
    let last = &file[(MOST - 1) * CONTACT..];
    assert_eq!(&one[2 * CONTACT..3 * CONTACT], last);
}

/// A cent from one row by each line: what is owed, then none.
pub fn lines() {
    let mut line = [0x40; LINE];
    let master = bulk::rows(STATE, 1, 2);
    put(&mut line, 1, &master[..2]);
    put(&mut line, 6, &master[2..11]);
    line[106] = master[11];
    put_text(&mut line, 76, "0000000000100000000000");
    let file = Mapping::closed(&line, MOST, &total(0, MOST));
    let (mut one, mut two) = (master.clone(), master);
    let (mut given, mut expected, mut listed) = (vec![0; MOST], vec![0; MOST], 0);
    assert_eq!(raw::post(&mut one, 1, &file, &mut given, &mut listed), 0);
    assert_eq!(
        reference::post(&mut two, 1, &file, &mut expected),
        Ok(listed)
    );
    // 1,000.50 at entry.
    assert_eq!(listed, MOST as u64 - 100_050);
    assert!(given == expected && one == two);
    assert_eq!(given[listed as usize - 1], MOST as u32);
    assert_eq!(one[195], 0xC4);
}
