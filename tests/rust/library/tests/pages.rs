//! Case pages of many rows through the library, which random cases seldom reach.

use fantanolive::raw;
use generator::bulk;
use generator::pages::enough;
use generator::text::{put_text, text};
use reference::pages::{LINES, NUMBER_DIGITS, WIDTH};

const STATE: [u8; 2] = [0xD6, 0xC8];
const MANY: usize = 65_537;

/// Answer, result and output by the library; the reference gives the same.
fn printed(master: &[u8], rows: usize, length: usize) -> (u64, u64, Vec<u8>) {
    let (mut one, mut two, mut pages) = (vec![0xEE; length], vec![0xEE; length], 77);
    let answer = raw::pages(master, rows, &mut one, &mut pages);
    let expected = match reference::pages(master, rows, &mut two) {
        Ok(count) => (0, count),
        Err(number) => (number, 77),
    };
    assert_eq!((answer, pages), expected);
    assert!(one == two);
    (answer, pages, one)
}

#[test]
fn many_rows() {
    let master = bulk::rows(STATE, MANY + 1, 2);
    let length = enough(MANY);
    let (answer, pages, out) = printed(&master, MANY, length + 1);
    assert_eq!((answer, pages), (0, MANY.div_ceil(LINES) as u64));
    assert_eq!(out[length], 0xEE);
    for (page, number) in out[..length].chunks((LINES + 2) * WIDTH).zip(1..) {
        let heading = text(&format!("CASES {number:0NUMBER_DIGITS$} "));
        assert!(page.starts_with(&heading));
        let lines = page.len() / WIDTH - 2;
        let foot = text(&format!("TOTAL {lines:04} "));
        assert!(page[page.len() - WIDTH..].starts_with(&foot));
    }
    assert_eq!(printed(&master, MANY, length).0, 0);
    assert_eq!(printed(&master, MANY, length - 1).0, 31);
    assert_eq!(printed(&master, MANY, 0).0, 31);
    assert_eq!(printed(&master, MANY + 1, length).0, 31);
    assert_eq!(printed(&master, MANY + 2, length).0, 3);
}

#[test]
fn every_number_of_rows_around_a_page() {
    let master = bulk::rows(STATE, 180, 2);
    for rows in 0..=180 {
        let length = enough(rows);
        let (answer, pages, _) = printed(&master, rows, length + 5);
        assert_eq!((answer, pages), (0, rows.div_ceil(58) as u64));
        assert_eq!(printed(&master, rows, length).0, 0);
        if rows > 0 {
            assert_eq!(printed(&master, rows, length - 1).0, 31);
            // Room for the lines but not for the heads and feet.
            assert_eq!(printed(&master, rows, rows * WIDTH).0, 31);
        }
    }
}

#[test]
fn every_set() {
    let mut master = bulk::rows(STATE, 256, 2);
    for (row, set) in master.chunks_exact_mut(200).zip(0..=255) {
        row[194] = set;
    }
    let (_, _, out) = printed(&master, 256, enough(256));
    let mut lines = out.chunks((LINES + 2) * WIDTH).flat_map(|page| {
        let lines = &page[WIDTH..page.len() - WIDTH];
        lines.chunks(WIDTH)
    });
    for set in 0..=255u8 {
        let digit = 0xF0 + set.count_ones() as u8;
        assert_eq!(lines.next().map(|line| line[63]), Some(digit));
    }
}

#[test]
fn deleted_rows_alone() {
    let mut master = bulk::rows(STATE, 3, 2);
    for row in master.chunks_exact_mut(200) {
        put_text(row, 66, "00000000");
        put_text(row, 196, "D00");
    }
    assert_eq!(printed(&master, 3, 0), (0, 0, vec![]));
    assert_eq!(printed(&master, 3, 9), (0, 0, vec![0xEE; 9]));
    assert_eq!(printed(&[], 0, 0), (0, 0, vec![]));
    // 50 cents are a live row's.
    put_text(&mut master, 196, " 50");
    assert_eq!(printed(&master, 3, 3 * WIDTH).1, 1);
    assert_eq!(printed(&master, 3, 3 * WIDTH - 1).0, 31);
}

#[test]
fn refusals() {
    let mut master = bulk::rows(STATE, 3, 2);
    assert_eq!(printed(&master, 4, 0).0, 3);
    assert_eq!(printed(&master, usize::MAX, 0).0, 3);
    assert_eq!(printed(&master[..599], 2, 0).0, 3);
    put_text(&mut master[400..], 66, "0000000 ");
    assert_eq!(printed(&master, 3, 0).0, 4);
    assert_eq!(printed(&master, 2, 0).0, 31);
}
