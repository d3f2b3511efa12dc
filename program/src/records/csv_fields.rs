//! Fields of records as cells of CSV and back: text without the spaces at its end, bytes that are no characters as \xNN. What a
//! cell gives back is what it was made from.

use std::borrow::Cow;

use super::columns::{detail, Field, Kind, Layout};
use super::field::Form;
use crate::code_page::{argument, Decoder};

/// A name in the form of those of columns.
fn in_form(name: &str) -> String {
    let name = name.trim().to_lowercase();
    name.replace("(s)", "s").replace([' ', '-'], "_")
}

/// The name of a field's column: `obligor_last_name`, with its columns for a filler.
pub fn name_of(field: &Field) -> String {
    let name = in_form(field.name);
    match field.kind {
        Kind::Filler => format!("{name}_{}_{}", field.first, field.last),
        _ => name,
    }
}

/// The field of a column, by its name as `export` writes it or as `show` does.
pub fn field_named<'a>(fields: &'a [Field], name: &str) -> Option<&'a Field> {
    let name = in_form(name);
    fields.iter().find(|field| name_of(field) == name)
}

pub fn names_of(fields: Layout) -> Vec<String> {
    fields.iter().map(name_of).collect()
}

/// Whether a field is filled with zeros from the left where it has fewer digits.
fn has_zeros(field: &Field) -> bool {
    *field == detail::ARREARAGE
}

fn width(field: &Field) -> usize {
    field.last + 1 - field.first
}

/// A field as a cell. The form has SSNs whole and other bytes as \xNN.
pub fn cell_of(form: &Form, field: &Field, record: &[u8]) -> String {
    let mut cell = String::new();
    if field.kind == Kind::Set {
        form.put(field, record, &mut cell);
        return cell;
    }
    let bytes = field.of(record);
    form.put_text(bytes, &mut cell);
    let is_short = cell.len() < width(field) && !cell.is_empty();
    if has_zeros(field) && is_short && cell.bytes().all(|byte| byte.is_ascii_digit()) {
        // the spaces behind stay, so that no zeros are put before
        cell = format!("{cell:<0$}", width(field));
    }
    cell
}

/// What is wrong with a cell: as a part of a sentence.
pub type Wrong = String;

/// The bytes of a field from a cell, as many as it has.
pub fn bytes_of(decoder: &Decoder, field: &Field, cell: &str) -> Result<Vec<u8>, Wrong> {
    let mut bytes = Vec::new();
    let plain = plain_ssn(field, cell);
    let mut rest = &*plain;
    while let Some(c) = rest.chars().next() {
        let behind = &rest[c.len_utf8()..];
        let raw = behind
            .get(1..3)
            .filter(|_| c == '\\' && behind.starts_with('x'));
        match raw.and_then(|digits| u8::from_str_radix(digits, 16).ok()) {
            Some(byte) => {
                bytes.push(byte);
                rest = &behind[3..];
            }
            None => {
                bytes.push(code_of(decoder, c)?);
                rest = behind;
            }
        }
    }
    let wide = width(field);
    if bytes.len() > wide {
        let length = bytes.len();
        return Err(format!("has {length} characters, and the field {wide}"));
    }
    if has_zeros(field)
        && !bytes.is_empty()
        && bytes.iter().all(|byte| (0xF0..=0xF9).contains(byte))
    {
        let zeros = vec![argument(b"0")[0]; wide - bytes.len()];
        bytes.splice(0..0, zeros);
    }
    bytes.resize(wide, argument(b" ")[0]);
    Ok(bytes)
}

/// An SSN of the form 123-45-6789 without its hyphens; it would not fit with them.
pub fn plain_ssn<'a>(field: &Field, cell: &'a str) -> Cow<'a, str> {
    let bytes = cell.as_bytes();
    let has_hyphens = bytes.len() == 11 && bytes[3] == b'-' && bytes[6] == b'-';
    match field.kind == Kind::Ssn && has_hyphens {
        true => Cow::Owned(cell.replace('-', "")),
        false => Cow::Borrowed(cell),
    }
}

/// The code of a character.
fn code_of(decoder: &Decoder, c: char) -> Result<u8, Wrong> {
    let byte = u8::try_from(c).ok().filter(u8::is_ascii);
    let code = byte.map(|byte| argument(&[byte])[0]);
    let known = code.filter(|&code| code != 0 && decoder.character(code).is_some());
    known.ok_or_else(|| match c {
        'a'..='z' => format!("has '{c}', a lower case letter: use upper case"),
        c if c.is_control() => format!("has a control character (hexadecimal {:02X})", c as u32),
        c => format!("has '{c}', which is no character of the code page"),
    })
}

#[cfg(test)]
mod tests {
    use super::super::field::{text_in, Placeholder};
    use super::*;
    use crate::code_page::Charset;
    use fantanolive::RECORD;

    #[test]
    fn names_of_columns() {
        assert_eq!(name_of(&detail::LAST_NAME), "obligor_last_name");
        assert_eq!(name_of(&detail::EXCLUSIONS), "exclusion_indicators");
        assert_eq!(name_of(&detail::FILLER), "filler_228_244");
        assert_eq!(field_named(detail::FIELDS, " SSN "), Some(&detail::SSN));
        for name in ["Obligor Last Name", "OBLIGOR-LAST_NAME"] {
            assert_eq!(field_named(detail::FIELDS, name), Some(&detail::LAST_NAME));
        }
        let exclusions = field_named(detail::FIELDS, "Exclusion Indicator(s)");
        assert_eq!(exclusions, Some(&detail::EXCLUSIONS));
        assert_eq!(field_named(detail::FIELDS, "name"), None);
    }

    fn bytes(field: &Field, cell: &str) -> Result<Vec<u8>, String> {
        bytes_of(&Decoder::new(Charset::Ebcdic), field, cell)
    }

    #[test]
    fn cells_to_bytes() {
        let text = |text: &str| Ok(argument(text.as_bytes()));
        assert_eq!(bytes(&detail::ARREARAGE, "1500"), text("00001500"));
        assert_eq!(bytes(&detail::ARREARAGE, ""), text("        "));
        assert_eq!(bytes(&detail::ARREARAGE, "1500 "), text("1500    "));
        assert_eq!(bytes(&detail::SSN, "123-45-6789"), text("123456789"));
        assert_eq!(bytes(&detail::LOCAL_CODE, "3"), text("3  "));
        assert_eq!(bytes(&detail::STATE, "O\\x00"), Ok(vec![0xD6, 0]));
        for (field, cell, wrong) in [
            (detail::STATE, "OHI", "has 3 characters, and the field 2"),
            (
                detail::LAST_NAME,
                "Smith",
                "has 'm', a lower case letter: use upper case",
            ),
            (
                detail::LAST_NAME,
                "MÜ",
                "has 'Ü', which is no character of the code page",
            ),
            (
                detail::LAST_NAME,
                "A\tB",
                "has a control character (hexadecimal 09)",
            ),
            (
                detail::LAST_NAME,
                "\\x0",
                "has '\\', which is no character of the code page",
            ),
        ] {
            assert_eq!(bytes(&field, cell), Err(wrong.to_string()), "{cell}");
        }
    }

    /// Whatever stands in a record, its cells give it back.
    #[test]
    fn cells_give_records_back() {
        let form = Form::new(Charset::Ebcdic, Placeholder::Hex, true);
        let mut seed: u64 = 5;
        for round in 0..500 {
            let mut record = text_in(RECORD, &[(detail::ARREARAGE, "15")]);
            for place in 0..RECORD {
                seed = seed.wrapping_mul(6_364_136_223_846_793_005).wrapping_add(1);
                if seed >> 60 < round % 16 {
                    record[place] = (seed >> 32) as u8;
                }
            }
            for field in detail::FIELDS {
                let cell = cell_of(&form, field, &record);
                assert_eq!(
                    bytes(field, &cell).as_deref(),
                    Ok(field.of(&record)),
                    "{cell}"
                );
            }
        }
    }
}
