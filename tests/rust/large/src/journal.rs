//! The journal of a batch that adds no row, written from document 02 alone.

use generator::rows::ROW;

/// A number in groups of seven bits, the low one first, the high bit set on all but the last.
fn put_number(mut number: usize, out: &mut Vec<u8>) {
    while number > 127 {
        out.push(0x80 | (number % 128) as u8);
        number /= 128;
    }
    out.push(number as u8);
}

/// The row counts, then the place, 01 and the old row of each row that differs; and how many they are.
pub fn journal(before: &[u8], after: &[u8]) -> (Vec<u8>, usize) {
    let mut out = Vec::new();
    put_number(before.len() / ROW, &mut out);
    put_number(after.len() / ROW, &mut out);
    let rows = before.chunks(ROW).zip(after.chunks(ROW)).enumerate();
    let mut changed = 0;
    for (place, (old, _)) in rows.filter(|(_, (old, new))| old != new) {
        put_number(place, &mut out);
        out.push(1);
        out.extend_from_slice(old);
        changed += 1;
    }
    (out, changed)
}
