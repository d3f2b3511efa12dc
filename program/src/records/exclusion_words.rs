//! The set that an exclusion field stores. The library reads the words: an R with them is applied to a row made up for it.

use super::columns::{detail, row};
use super::made_up_case::{judged, record_of};
use crate::code_page::argument;

/// The set of a field, forty characters of ASCII, or the verdict on a record with it.
pub fn set_of(words: &[u8]) -> Result<u8, u64> {
    let mut record = record_of("R", &[]);
    detail::EXCLUSIONS.set(&mut record, &argument(words));
    match judged(&record) {
        (0, row) => Ok(row::EXCLUSIONS.of(&row)[0]),
        (verdict, _) => Err(verdict),
    }
}

#[cfg(test)]
mod tests {
    use super::*;

    fn set(words: &str) -> Result<u8, u64> {
        set_of(format!("{words:<40}").as_bytes())
    }

    #[test]
    fn words_and_what_are_none() {
        assert_eq!(set(""), Ok(0));
        assert_eq!(set("RET, PAS"), Ok(0b0010_0010));
        assert_eq!(set("ADM"), Ok(0b0000_1111));
        assert_eq!(set("DCK FIN,TAX"), Ok(0b1101_0000));
        for none in ["XYZ", "adm", "RETPAS", "RET;PAS"] {
            assert_eq!(set(none), Err(1 << 16), "{none}");
        }
        assert_eq!(set_of(&[0xFF; 40]), Err(1 << 16));
    }
}
