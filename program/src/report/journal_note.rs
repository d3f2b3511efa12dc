//! What stands at the front of a journal, for a note: the row counts before and after its batch.

use crate::failure::counted;
use crate::files::read::Input;

/// How many bytes of a number are read; one that is longer is not shown.
const LONGEST: usize = 5;

/// The number at the front of bytes, in groups of seven bits, the low one first, and the bytes behind it.
fn number(bytes: &[u8]) -> Option<(u64, &[u8])> {
    let last = bytes
        .iter()
        .take(LONGEST)
        .position(|byte| byte & 0x80 == 0)?;
    let groups = bytes[..=last].iter().rev();
    let number = groups.fold(0, |number, byte| number << 7 | u64::from(byte & 0x7F));
    Some((number, &bytes[last + 1..]))
}

/// `JOURNAL: 206 bytes, of a batch with 4 rows before it and 5 behind it`; without the counts where they can't be read.
pub fn counts_of(journal: &Input) -> String {
    let bytes = &journal.bytes[..journal.read];
    let counts = number(bytes).and_then(|(before, rest)| Some((before, number(rest)?.0)));
    let length = counted(journal.length, "byte");
    let name = journal.name();
    match counts {
        None => format!("{name}: {length}, which begin with no row counts"),
        Some((before, after)) => format!(
            "{name}: {length}; it begins with the row counts {before} before the batch and {after} after it"
        ),
    }
}

#[cfg(test)]
mod tests {
    use super::*;

    #[test]
    fn numbers_in_groups() {
        for (bytes, value) in [
            (&[0x00][..], 0),
            (&[0x7F], 127),
            (&[0x80, 0x01], 128),
            (&[0xFF, 0x7F], 16_383),
            (&[0x80, 0x80, 0x01], 16_384),
        ] {
            let with_more = [bytes, &[7]].concat();
            assert_eq!(number(&with_more), Some((value, &[7][..])));
        }
        for none in [&[][..], &[0x80], &[0xFF; 9]] {
            assert_eq!(number(none), None);
        }
    }
}
