//! Pages whose number takes six digits, and look-ups in the same master.

use fantanolive::raw;
use generator::bulk;
use generator::pages::enough;
use generator::text::text;
use reference::pages::{LINES, WIDTH};
use reference::row::ROW;
use sparse::Mapping;

use crate::STATE;

/// The last page has one line.
const PAGES: usize = 100_001;
const ROWS: usize = (PAGES - 1) * LINES + 1;
const PAGE: usize = (LINES + 2) * WIDTH;

/// An output whose whole blocks are on the same pages, so that the last that was written there shows.
fn output() -> Mapping {
    Mapping::repeated(&[0xEE; WIDTH], enough(ROWS) / WIDTH, 1)
}

pub fn six_digits() {
    let master = bulk::rows(STATE, ROWS, 2);
    let (mut one, mut two, mut pages) = (output(), output(), 0);
    assert_eq!(raw::pages(&master, ROWS, &mut one, &mut pages), 0);
    assert_eq!(reference::pages(&master, ROWS, &mut two), Ok(pages));
    assert_eq!(pages, PAGES as u64);
    // The last block and what is behind it: some thousand pages before the last.
    let shown = one.len() - 1000 * PAGE;
    assert!(one[shown..] == two[shown..]);
    let heading = |number: usize| &one[(number - 1) * PAGE..][..13];
    for number in [99_999, 100_000, 100_001] {
        assert_eq!(heading(number), text(&format!("CASES {number:06} ")));
    }
    assert_eq!(one[one.len() - 1], 0);
    let short = one.len() - 2;
    assert_eq!(raw::pages(&master, ROWS, &mut one[..short], &mut pages), 31);
    assert_eq!(reference::pages(&master, ROWS, &mut two[..short]), Err(31));
    look_ups(&master);
}

/// The last row, by its key alone and among others.
fn look_ups(master: &[u8]) {
    let last = &master[(ROWS - 1) * ROW..][..12];
    let mut place = 0;
    assert_eq!(raw::find(master, ROWS, last, &mut place), 0);
    assert_eq!(
        (place, reference::find(master, ROWS, last)),
        (ROWS as u64 - 1, Ok(place))
    );
    let keys: Vec<u8> = [0, 1, ROWS, 2 * (ROWS - 1), 2 * ROWS]
        .into_iter()
        .flat_map(|number| bulk::key(STATE, number))
        .collect();
    let (mut one, mut two, mut comparisons) = ([0; 5], [0; 5], 0);
    assert_eq!(
        raw::find_many(master, ROWS, &keys, &mut one, &mut comparisons),
        0
    );
    assert_eq!(
        reference::find_many(master, ROWS, &keys, &mut two),
        Ok(comparisons)
    );
    assert_eq!(one, two);
    assert_eq!((one[3], one[4]), (ROWS as u32 - 1, u32::MAX));
}
