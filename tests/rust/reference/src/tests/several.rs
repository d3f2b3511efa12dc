//! Item 10 of document 02: a file sent as several, and why each of its provisos is needed.

use super::{add, control, put, record};
use crate::batch::{apply, RECORD};
use crate::row::ROW;
use crate::text::ebcdic_byte;

type Record = [u8; RECORD];
const NO_CODES: &[u8] = &[];

/// Rows, and the verdicts in batch order, of batches one behind the other; none where one is refused.
fn sent(parts: &[(&[Record], u64)], room: usize, lists: &[&[u8]]) -> Option<(Vec<u8>, Vec<u64>)> {
    let (mut master, mut rows, mut all) = (vec![7; room * ROW], 0, Vec::new());
    for ((details, amount), list) in parts.iter().zip(lists) {
        let control = control([0, details.len() as u64, 0, *amount]);
        let batch = [details.concat(), control.to_vec()].concat();
        let mut verdicts = vec![9; details.len()];
        let mut rejects = vec![9; batch.len()];
        let done = apply(
            &mut master,
            rows,
            &batch,
            list,
            2007,
            &mut verdicts,
            &mut rejects,
        );
        rows = done.ok()?.rows as usize;
        all.extend(verdicts);
    }
    master.truncate(rows * ROW);
    Some((master, all))
}

/// B to JONES.
fn rename() -> Record {
    let mut rename = record("B", "JONES", "");
    put(&mut rename, 50, "JOHN");
    rename
}

fn other_key(mut record: Record) -> Record {
    put(&mut record, 6, "987654321");
    record
}

#[test]
fn the_same_in_parts() {
    let details = [
        add("00000025"),
        record("M", "SMITH", "00000100"),
        other_key(add("00000030")),
        other_key(record("M", "JONES", "00000200")),
        other_key(rename()),
        record("M", "SMYTH", "00000300"),
    ];
    let whole = sent(&[(&details, 655)], 3, &[&[]]).unwrap();
    // The M of JONES passes for the B behind it; SMYTH gets 17.
    assert_eq!(whole.1, [0, 0, 0, 0, 0, 1 << 17]);
    let parts: [(&[Record], u64); 3] = [
        (&details[..2], 125),
        (&details[2..5], 230),
        (&details[5..], 300),
    ];
    assert_eq!(sent(&parts, 3, &[NO_CODES; 3]).as_ref(), Some(&whole));
    // A part without details changes nothing.
    let parts = [parts[0], (&[][..], 0), parts[1], parts[2]];
    assert_eq!(sent(&parts, 3, &[NO_CODES; 4]).as_ref(), Some(&whole));
}

#[test]
fn a_key_with_a_b_in_two_parts() {
    let details = [add("00000025"), record("M", "JONES", "00000100"), rename()];
    let whole = sent(&[(&details, 125)], 3, &[&[]]).unwrap();
    let parts: [(&[Record], u64); 2] = [(&details[..2], 125), (&details[2..], 0)];
    let apart = sent(&parts, 3, &[NO_CODES; 2]).unwrap();
    assert_eq!(
        (&whole.1[..], &apart.1[..]),
        (&[0, 0, 0][..], &[0, 1 << 17, 0][..])
    );
    assert_ne!(whole.0, apart.0);
}

#[test]
fn carried_out_in_parts_alone() {
    // One free place, and the same new key twice.
    let details = [add("00000025"), add("00000030")];
    let parts: [(&[Record], u64); 2] = [(&details[..1], 25), (&details[1..], 30)];
    assert_eq!(sent(&[(&details, 55)], 1, &[&[]]), None);
    assert!(sent(&parts, 1, &[NO_CODES; 2]).is_some());
}

#[test]
fn another_list() {
    let mut local = record("L", "SMITH", "");
    put(&mut local, 3, "001");
    let details = [add("00000025"), local];
    let code = b"001".map(ebcdic_byte);
    let whole = sent(&[(&details, 25)], 1, &[&code]).unwrap();
    let parts: [(&[Record], u64); 2] = [(&details[..1], 25), (&details[1..], 0)];
    assert_eq!(sent(&parts, 1, &[&code, &code]).as_ref(), Some(&whole));
    let apart = sent(&parts, 1, &[&code, &[]]).unwrap();
    assert_eq!((whole.1[1], apart.1[1]), (0, 1 << 10));
}

#[test]
fn the_order_of_the_parts() {
    let details = [add("00000025"), record("M", "SMITH", "00000100")];
    let whole = sent(&[(&details, 125)], 1, &[&[]]).unwrap();
    let turned: [(&[Record], u64); 2] = [(&details[1..], 100), (&details[..1], 25)];
    let turned = sent(&turned, 1, &[NO_CODES; 2]).unwrap();
    assert_eq!(turned.1, [1 << 9, 0]);
    assert_ne!(whole.0, turned.0);
}
