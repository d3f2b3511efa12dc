//! The case pages of a master, written from document 02 alone.

use generator::rows::ROW;
use generator::text::{digits, put, put_text, SPACE};

/// Columns of a line, lines of cases on a full page, and digits of a page's number.
const COLUMNS: usize = 132;
const CASES: usize = 58;
const DIGITS: usize = 6;

/// A word in column 1 and a number in column 7.
fn titled(word: &str, number: usize, width: usize) -> Vec<u8> {
    let mut line = vec![SPACE; COLUMNS];
    put_text(&mut line, 1, word);
    put(&mut line, 7, &digits(number as u64, width));
    line
}

fn line(row: &[u8]) -> Vec<u8> {
    let mut line = vec![SPACE; COLUMNS];
    let fields = [
        (1, 1, 12),
        (14, 13, 15),
        (18, 31, 50),
        (39, 51, 65),
        (55, 66, 73),
    ];
    for (column, first, last) in fields {
        put(&mut line, column, &row[first - 1..last]);
    }
    put(&mut line, 64, &digits(u64::from(row[194].count_ones()), 1));
    line
}

/// The pages of the live rows.
pub fn pages(master: &[u8]) -> Vec<u8> {
    let live: Vec<&[u8]> = master.chunks(ROW).filter(|row| row[195] == SPACE).collect();
    let mut out = Vec::new();
    for (page, rows) in (1..).zip(live.chunks(CASES)) {
        out.extend(titled("CASES", page, DIGITS));
        out.extend(rows.iter().flat_map(|row| line(row)));
        out.extend(titled("TOTAL", rows.len(), 4));
    }
    out
}

/// The same in ASCII: a line feed behind each line, without its last spaces, and a form feed behind each foot.
pub fn printed(ascii: &[u8]) -> Vec<u8> {
    let mut out = Vec::new();
    for line in ascii.chunks(COLUMNS) {
        out.extend(line.trim_ascii_end());
        out.push(b'\n');
        if line.starts_with(b"TOTAL ") {
            out.push(0x0C);
        }
    }
    out
}
