//! A journal whose places take four groups.

use std::hash::{DefaultHasher, Hasher};

use fantanolive::raw;
use generator::bulk;
use generator::journal::enough;
use generator::records::{batch, Record, RECORD};
use generator::rng::Rng;
use generator::text::text;
use reference::row::ROW;

use crate::{answer, STATE};

/// The first place of four groups.
const FOUR: usize = 1 << 21;
const ROWS: usize = FOUR + 3;

fn hash(bytes: &[u8]) -> u64 {
    let mut hasher = DefaultHasher::new();
    hasher.write(bytes);
    hasher.finish()
}

/// Changes around the place, a new row behind it and one at the end.
fn details() -> Vec<Record> {
    let mut rng = Rng::new(4);
    let mut change = |place: usize| bulk::change(&mut rng, STATE, 2 * place, b"CLRT");
    let mut details = vec![change(FOUR + 1), change(FOUR - 1), change(0), change(FOUR)];
    details.push(bulk::add(STATE, 2 * FOUR + 1));
    details.push(bulk::add(STATE, 2 * ROWS + 1));
    details
}

/// The journal by hand.
fn expected(master: &[u8]) -> Vec<u8> {
    let old = |place: usize| &master[place * ROW..][..ROW];
    [
        &[0x83, 0x80, 0x80, 0x01][..],
        &[0x85, 0x80, 0x80, 0x01],
        &[0x00, 0x01],
        old(0),
        &[0xFF, 0xFF, 0x7F, 0x01],
        old(FOUR - 1),
        &[0x80, 0x80, 0x80, 0x01, 0x01],
        old(FOUR),
        &[0x81, 0x80, 0x80, 0x01, 0x00],
        &[0x82, 0x80, 0x80, 0x01, 0x01],
        old(FOUR + 1),
        &[0x84, 0x80, 0x80, 0x01, 0x00],
    ]
    .concat()
}

/// One buffer goes there and back by the library, then by the reference.
pub fn four_groups() {
    let mut master = bulk::rows(STATE, ROWS, 2);
    master.resize((ROWS + 2) * ROW, 0xA5);
    let (at_entry, expected, details) = (hash(&master[..ROWS * ROW]), expected(&master), details());
    let (batch, list) = (batch(STATE, &details), text("001002"));
    let (mut verdicts, mut rejects) = ([0; 6], [0; 7 * RECORD]);
    let (mut journal, mut result) = (vec![0; enough(6)], [0; 6]);
    let given = raw::apply_journaled(
        &mut master,
        ROWS,
        &batch,
        &list,
        2007,
        &mut verdicts,
        &mut rejects,
        &mut journal,
        &mut result,
    );
    let length = expected.len() as u64;
    assert_eq!((given, result), (0, [6, 0, 0, 0, ROWS as u64 + 2, length]));
    assert_eq!(journal[..expected.len()], expected);
    let (left, mut rows) = (hash(&master), 0);
    assert_eq!(
        raw::take_back(
            &mut master,
            ROWS + 2,
            &expected[..expected.len() - 1],
            &mut rows
        ),
        26
    );
    assert_eq!(
        raw::take_back(&mut master, ROWS + 2, &expected, &mut rows),
        0
    );
    assert_eq!((rows, hash(&master[..ROWS * ROW])), (ROWS as u64, at_entry));
    journal.fill(0);
    let done = reference::apply_journaled(
        &mut master,
        ROWS,
        &batch,
        &list,
        2007,
        &mut verdicts,
        &mut rejects,
        &mut journal,
    );
    assert_eq!(done.map(|(_, length)| length), Ok(length));
    assert_eq!(journal[..expected.len()], expected);
    assert_eq!(hash(&master), left);
    let cut = &expected[..expected.len() - 1];
    assert_eq!(answer(reference::take_back(&mut master, ROWS + 2, cut)), 26);
    assert_eq!(
        reference::take_back(&mut master, ROWS + 2, &expected),
        Ok(rows)
    );
    assert_eq!(hash(&master[..ROWS * ROW]), at_entry);
}
