//! Document 02, item 12: a case page.

use crate::row::{is_live, refusal_03, refusal_04, rows_of};
use crate::text::{column, columns, columns_mut, ebcdic, write_number, SPACE};

/// "132 columns and no line ends"
pub const WIDTH: usize = 132;
/// "58 lines for live rows"
pub const LINES: usize = 58;
/// "The page number becomes six digits." (item 14)
pub const NUMBER_DIGITS: usize = 6;
/// "four digits for the lines of this page"
const COUNT_DIGITS: usize = 4;

pub type Line = [u8; WIDTH];

/// "the key, a space, the local code, last name, first name and arrearage as in the row with a space
/// after each, how many exclusion bits are set (one digit), then spaces to 132"
pub fn line_of(row: &[u8]) -> Line {
    let mut line = [SPACE; WIDTH];
    let mut copy = |to: (usize, usize), from: (usize, usize)| {
        columns_mut(&mut line, to.0, to.1).copy_from_slice(columns(row, from.0, from.1));
    };
    copy((1, 12), (1, 12));
    copy((14, 16), (13, 15));
    copy((18, 37), (31, 50));
    copy((39, 53), (51, 65));
    copy((55, 62), (66, 73));
    let set = u64::from(column(row, 195));
    let bits = (0..8).filter(|bit| set >> bit & 1 == 1).count() as u64;
    write_number(columns_mut(&mut line, 64, 64), bits);
    line
}

/// A word, a space and a number, "filled with spaces".
fn named(word: &[u8; 5], number: u64, digits: usize) -> Line {
    let mut line = [SPACE; WIDTH];
    columns_mut(&mut line, 1, 5).copy_from_slice(&ebcdic(word));
    write_number(columns_mut(&mut line, 7, 6 + digits), number);
    line
}

/// "a heading, 58 lines for live rows in key order (on the last page perhaps fewer, never none), and
/// a foot"
fn page(number: u64, rows: &[&[u8]]) -> Vec<Line> {
    let mut lines = vec![named(b"CASES", number, NUMBER_DIGITS)];
    lines.extend(rows.iter().map(|row| line_of(row)));
    lines.push(named(b"TOTAL", rows.len() as u64, COUNT_DIGITS));
    lines
}

/// The case pages of a master: how many there are. Err holds the refusal's number.
pub fn pages(master: &[u8], rows: usize, out: &mut [u8]) -> Result<u64, u64> {
    if refusal_03(master, rows) {
        return Err(3);
    }
    if refusal_04(master, rows) {
        return Err(4);
    }
    let live: Vec<&[u8]> = rows_of(master, rows).filter(|row| is_live(row)).collect();
    let pages = live.chunks(LINES);
    let (count, lines) = (pages.len(), live.len() + 2 * pages.len());
    // "31, a buffer too short for the pages"
    if out.len() < lines * WIDTH {
        return Err(31);
    }
    let written = (1..)
        .zip(pages)
        .flat_map(|(number, rows)| page(number, rows));
    for (place, line) in out.chunks_exact_mut(WIDTH).zip(written) {
        place.copy_from_slice(&line);
    }
    Ok(count as u64)
}
