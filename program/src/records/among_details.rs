//! Records among the details of a batch that don't go with its control record: other control records, and other states.

use fantanolive::RECORD;

use super::columns::{control, detail};
use crate::code_page::argument;

/// The numbers of the records that have the word of a control record, the first being 1.
pub fn control_records(details: &[u8]) -> Vec<usize> {
    let word = argument(b"CTL");
    let records = (1..).zip(details.chunks_exact(RECORD));
    let marked = records.filter(|(_, record)| control::MARK.of(record) == word);
    marked.map(|(number, _)| number).collect()
}

/// How many details have another state than this one, and the number of the first of them.
pub fn of_other_states(details: &[u8], state: &[u8]) -> Option<(usize, usize)> {
    let records = (1..).zip(details.chunks_exact(RECORD));
    let mut others = records.filter(|(_, record)| detail::STATE.of(record) != state);
    let (first, _) = others.next()?;
    Some((1 + others.count(), first))
}

#[cfg(test)]
mod tests {
    use super::super::field::text_in;
    use super::*;

    #[test]
    fn controls_and_states() {
        let of = |state: &str| text_in(RECORD, &[(detail::STATE, state)]);
        let control = text_in(RECORD, &[(control::STATE, "OH"), (control::MARK, "CTL")]);
        let details = [of("OH"), control, of("TX"), of("OH"), of("KY")].concat();
        assert_eq!(control_records(&details), [2]);
        assert_eq!(of_other_states(&details, &argument(b"OH")), Some((2, 3)));
        assert_eq!(of_other_states(&details[..490], &argument(b"OH")), None);
        assert_eq!(control_records(&[]), [] as [usize; 0]);
    }
}
