//! Fields as text.

use std::borrow::Cow;

use super::columns::{Field, Kind, Layout};
use crate::code_page::{argument, Charset, Decoder};
use crate::mask::{masked_typed, SHORTEST};
use crate::number::put_number;

/// What stands for a byte that is no character.
#[derive(Clone, Copy, Debug, PartialEq, Eq)]
pub enum Placeholder {
    /// A full stop.
    Dot,
    /// `\xNN`.
    Hex,
}

/// How fields are written.
pub struct Form {
    pub decoder: Decoder,
    pub placeholder: Placeholder,
    /// Whether SSNs are written whole.
    pub full: bool,
    /// Whether every digit is masked: records that do not stand in their columns may have an SSN anywhere.
    pub digits_masked: bool,
}

/// The exclusions, the lowest bit first.
const EXCLUSIONS: [&str; 8] = ["ADM", "RET", "VEN", "SAL", "TAX", "PAS", "FIN", "DCK"];

/// Bytes that are decoded at once; most fields have fewer. A few are written one by one.
const AT_ONCE: usize = 40;
const SHORT: usize = 5;

const HEXADECIMAL: [char; 16] = [
    '0', '1', '2', '3', '4', '5', '6', '7', '8', '9', 'A', 'B', 'C', 'D', 'E', 'F',
];

/// How many characters of an SSN are masked.
const MASKED: usize = 5;

impl Field {
    /// The field's bytes in a record.
    pub fn of<'a>(&self, record: &'a [u8]) -> &'a [u8] {
        &record[self.first - 1..self.last]
    }

    /// Puts bytes, as many as the field has, into a record.
    pub fn set(&self, record: &mut [u8], bytes: &[u8]) {
        record[self.first - 1..self.last].copy_from_slice(bytes);
    }

    /// Its columns as the charts give them.
    pub fn columns(&self) -> String {
        let mut text = String::new();
        self.put_columns(&mut text);
        text
    }

    pub fn put_columns(&self, out: &mut String) {
        put_number(self.first as u64, out);
        if self.first != self.last {
            out.push('-');
            put_number(self.last as u64, out);
        }
    }
}

/// A record of spaces with texts at the front of its fields, in EBCDIC.
pub fn text_in(width: usize, fields: &[(Field, &str)]) -> Vec<u8> {
    let mut record = argument(&vec![b' '; width]);
    for (field, text) in fields {
        let bytes = argument(text.as_bytes());
        record[field.first - 1..][..bytes.len()].copy_from_slice(&bytes);
    }
    record
}

impl Form {
    pub fn new(charset: Charset, placeholder: Placeholder, full: bool) -> Form {
        Form {
            decoder: Decoder::new(charset),
            placeholder,
            full,
            digits_masked: false,
        }
    }

    /// Writes a byte that is or isn't a character.
    fn put_byte(&self, byte: u8, out: &mut String) {
        match self.decoder.character(byte) {
            Some(b'0'..=b'9') if self.digits_masked => out.push('*'),
            Some(character) => out.push(char::from(character)),
            None => self.put_placeholder(byte, out),
        }
    }

    /// Writes a byte that is no character.
    #[cold]
    fn put_placeholder(&self, byte: u8, out: &mut String) {
        match self.placeholder {
            Placeholder::Hex if !self.digits_masked => {
                let [high, low] =
                    [byte >> 4, byte & 0x0F].map(|half| HEXADECIMAL[usize::from(half)]);
                out.push_str("\\x");
                out.extend([high, low]);
            }
            _ => out.push('.'),
        }
    }

    /// Writes bytes without the spaces at their end.
    pub fn put_text(&self, bytes: &[u8], out: &mut String) {
        let bytes = self.decoder.without_spaces(bytes);
        match bytes.len() < SHORT || self.digits_masked {
            true => self.put_bytes(bytes, out),
            false => self.put_long(bytes, out),
        }
    }

    fn put_bytes(&self, bytes: &[u8], out: &mut String) {
        for &byte in bytes {
            self.put_byte(byte, out);
        }
    }

    /// The same of several bytes at once.
    fn put_long(&self, bytes: &[u8], out: &mut String) {
        let mut place = [0; AT_ONCE];
        for some in bytes.chunks(AT_ONCE) {
            match self.decoder.text(some, &mut place) {
                Some(text) => out.push_str(text),
                None => self.put_bytes(some, out),
            }
        }
    }

    /// The same without SSNs that were typed into a field of another kind.
    fn put_typed(&self, bytes: &[u8], out: &mut String) {
        let start = out.len();
        self.put_text(bytes, out);
        if self.full || out.len() - start < SHORTEST {
            return;
        }
        if let Cow::Owned(masked) = masked_typed(&out[start..]) {
            out.replace_range(start.., &masked);
        }
    }

    /// Writes an SSN: its last four characters, the others masked.
    fn put_ssn(&self, bytes: &[u8], out: &mut String) {
        let masked = if self.full { 0 } else { MASKED };
        out.extend(std::iter::repeat_n('*', masked));
        for &byte in &bytes[masked..] {
            self.put_byte(byte, out);
        }
    }

    /// Writes an amount with its point where it is digits, else as it stands.
    fn put_amount(&self, bytes: &[u8], out: &mut String) {
        let digit = |place: usize| self.amount_digit(bytes, place);
        let is_amount = bytes.len() > 2 && (0..bytes.len()).all(|place| digit(place).is_some());
        if !is_amount || self.digits_masked {
            return self.put_typed(bytes, out);
        }
        let point = bytes.len() - 2;
        let zeros = (0..point - 1).take_while(|&place| digit(place) == Some(b'0'));
        let start = zeros.count();
        out.extend((start..point).filter_map(digit).map(char::from));
        out.push('.');
        out.extend((point..bytes.len()).filter_map(digit).map(char::from));
    }

    /// A digit of an amount, the last one with or without a positive sign.
    fn amount_digit(&self, bytes: &[u8], place: usize) -> Option<u8> {
        let byte = bytes[place];
        let digit = self.decoder.character(byte).filter(u8::is_ascii_digit);
        match place + 1 == bytes.len() {
            true => digit.or_else(|| self.signed_digit(byte)),
            false => digit,
        }
    }

    /// The digit of a byte with a positive sign: C0 to C9 in EBCDIC, of which C1 to C9 are A to I.
    fn signed_digit(&self, byte: u8) -> Option<u8> {
        match (self.decoder.charset, byte) {
            (Charset::Ebcdic, 0xC0..=0xC9) => Some(b'0' + (byte & 0x0F)),
            (Charset::Ascii | Charset::Lines, b'A'..=b'I') => Some(b'1' + (byte - b'A')),
            _ => None,
        }
    }

    /// The place of the first byte of a record that is no character; the last of an amount may have a sign.
    pub fn no_character(&self, fields: Layout, record: &[u8]) -> Option<usize> {
        let may_stand = |field: &Field, place: usize| {
            let byte = record[place];
            let is_signed = field.kind == Kind::Amount
                && place + 1 == field.last
                && self.signed_digit(byte).is_some();
            is_signed || self.decoder.character(byte).is_some()
        };
        let places = |field: &Field| {
            let wrong = (field.first - 1..field.last).find(|&place| !may_stand(field, place));
            wrong.filter(|_| field.kind != Kind::Set)
        };
        fields.iter().find_map(places)
    }

    /// Writes a field of a record.
    pub fn put(&self, field: &Field, record: &[u8], out: &mut String) {
        let bytes = field.of(record);
        match field.kind {
            Kind::Number => self.put_text(bytes, out),
            Kind::Text | Kind::Filler => self.put_typed(bytes, out),
            Kind::Ssn => self.put_ssn(bytes, out),
            Kind::Amount => self.put_amount(bytes, out),
            Kind::Set => out.push_str(&exclusions(bytes[0]).join(",")),
        }
    }

    /// A field of a record.
    pub fn field(&self, field: &Field, record: &[u8]) -> String {
        let mut out = String::new();
        self.put(field, record, &mut out);
        out
    }

    /// Writes a key: state, SSN and case type.
    pub fn put_key(&self, fields: &[Field; 3], record: &[u8], out: &mut String) {
        for field in fields {
            let start = out.len();
            self.put(field, record, out);
            // a blank state or case type keeps its width
            let width = field.last + 1 - field.first;
            while self.placeholder == Placeholder::Dot && out.len() < start + width {
                out.push(' ');
            }
        }
    }

    /// Writes a last and a first name, a comma between them.
    pub fn put_name(&self, last: &Field, first: &Field, record: &[u8], out: &mut String) {
        self.put(last, record, out);
        let start = out.len();
        self.put(first, record, out);
        if out.len() > start {
            out.insert_str(start, ", ");
        }
    }
}

/// The names of the exclusions in a set.
pub fn exclusions(set: u8) -> Vec<&'static str> {
    let names = EXCLUSIONS.into_iter().enumerate();
    let named = names.filter(|(bit, _)| set >> bit & 1 == 1);
    named.map(|(_, name)| name).collect()
}

#[cfg(test)]
mod tests {
    use super::*;
    use crate::records::columns::{line, row};

    fn form(charset: Charset, placeholder: Placeholder) -> Form {
        Form::new(charset, placeholder, false)
    }

    #[test]
    fn texts_and_placeholders() {
        let bytes = [0xC1, 0x00, 0xC2, 0x40, 0x40];
        for (placeholder, text) in [(Placeholder::Dot, "A.B"), (Placeholder::Hex, "A\\x00B")] {
            let mut out = String::new();
            form(Charset::Ebcdic, placeholder).put_text(&bytes, &mut out);
            assert_eq!(out, text);
        }
        // at every place of a long text
        let form = form(Charset::Ebcdic, Placeholder::Hex);
        for place in 0..2 * AT_ONCE + 3 {
            let mut bytes = [0xC1; 2 * AT_ONCE + 3];
            bytes[place] = 0xFA;
            let mut out = String::new();
            form.put_text(&bytes, &mut out);
            let wanted = format!(
                "{}\\xFA{}",
                "A".repeat(place),
                "A".repeat(bytes.len() - place - 1)
            );
            assert_eq!(out, wanted);
        }
    }

    #[test]
    fn ssns_are_masked() {
        let mut record = vec![0x40; 200];
        record[2..11].copy_from_slice(&[0xF1, 0xF2, 0xF3, 0xF4, 0xF5, 0xF6, 0xF7, 0xF8, 0xF9]);
        let mut form = form(Charset::Ebcdic, Placeholder::Dot);
        assert_eq!(form.field(&row::SSN, &record), "*****6789");
        form.full = true;
        assert_eq!(form.field(&row::SSN, &record), "123456789");
    }

    #[test]
    fn amounts() {
        let form = form(Charset::Ebcdic, Placeholder::Dot);
        let mut line = vec![0x40; 240];
        let mut amount = |front: u8, last: u8| {
            line[75..85].fill(0xF0);
            line[83] = front;
            line[85] = last;
            form.field(&line::COLLECTION, &line)
        };
        assert_eq!(amount(0xF0, 0xF0), "0.00");
        assert_eq!(amount(0xF1, 0xF5), "1.05");
        assert_eq!(amount(0xF1, 0xC5), "1.05");
        assert_eq!(amount(0xF1, 0xC0), "1.00");
        assert_eq!(amount(0xF1, 0xD5), "0000000010N");
        assert_eq!(amount(0x40, 0xF1), "00000000 01");
    }

    #[test]
    fn sets_of_exclusions() {
        assert_eq!(exclusions(0), Vec::<&str>::new());
        assert_eq!(exclusions(0b0010_0010), ["RET", "PAS"]);
        assert_eq!(exclusions(0xFF), EXCLUSIONS);
    }
}
