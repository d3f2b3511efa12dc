//! The fields of a detail that a code is about.

use std::borrow::Cow;

use super::columns::{detail, Field};

/// A space in EBCDIC.
const SPACE: u8 = 0x40;

/// The fields that a code is about; of an address those that are wrong are found out (`address_faults`).
pub fn fields_of(code: u32) -> &'static [Field] {
    match code {
        1 => &[detail::STATE],
        2 => &[detail::SSN],
        3 => &[detail::TRANSACTION_TYPE],
        4 => &[detail::CASE_TYPE],
        5 | 17 => &[detail::LAST_NAME],
        6 => &[detail::FIRST_NAME],
        7 | 8 => &[detail::ARREARAGE],
        9 => &[detail::STATE, detail::SSN, detail::CASE_TYPE],
        10 | 51 => &[detail::LOCAL_CODE],
        11 => &[detail::CASE_ID],
        12 => &[detail::TRANSFER_STATE],
        13 => &[detail::PROCESS_YEAR],
        15 => &[detail::DATE_ISSUED],
        16 => &[detail::EXCLUSIONS],
        18 => &[detail::FILLER],
        52 => &[detail::LAST_NAME, detail::FIRST_NAME],
        _ => &[],
    }
}

/// A field's own name, and with its columns for a filler.
pub fn name_of(field: &Field) -> Cow<'static, str> {
    match field.first == detail::FILLER.first {
        true => Cow::Owned(format!("{} {}", field.name, field.columns())),
        false => Cow::Borrowed(field.name),
    }
}

/// Whether a field is blank in a record: eight bytes at a time.
pub fn is_blank(field: &Field, record: &[u8]) -> bool {
    let (eights, rest) = field.of(record).as_chunks();
    eights.iter().all(|bytes| *bytes == [SPACE; 8]) && rest.iter().all(|&byte| byte == SPACE)
}

#[cfg(test)]
mod tests {
    use super::super::address_faults::ADDRESS;
    use super::*;

    #[test]
    fn every_code_has_its_fields() {
        for code in (1..=18).chain([51, 52]).filter(|&code| code != ADDRESS) {
            assert!(!fields_of(code).is_empty(), "{code}");
        }
        assert!(fields_of(99).is_empty());
    }
}
