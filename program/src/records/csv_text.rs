//! The text of a CSV file from its bytes: what it is in where that isn't UTF-8, and what parts its columns where no commas do.

use super::columns::detail;
use super::csv_fields::field_named;

const SAVE: &str = "save it as CSV in UTF-8";

/// How many bytes at the front show that every other one is zero.
const FRONT: usize = 64;

/// The text, or what is wrong with it.
pub fn text_of(bytes: Vec<u8>) -> Result<String, String> {
    let front = &bytes[..bytes.len().min(FRONT)];
    let has_mark = front.starts_with(&[0xFF, 0xFE]) || front.starts_with(&[0xFE, 0xFF]);
    if has_mark || front.contains(&0) && front.iter().any(u8::is_ascii_alphanumeric) {
        return Err(format!("line 1: the file is in UTF-16: {SAVE}"));
    }
    String::from_utf8(bytes).map_err(|error| {
        let place = error.utf8_error().valid_up_to();
        let bytes = error.as_bytes();
        let line = 1 + bytes[..place].iter().filter(|&&b| b == b'\n').count();
        let byte = bytes[place];
        format!(
            "line {line} is no text in UTF-8: byte {place} of the file is hexadecimal {byte:02X}; \
             {SAVE}, not in Latin-1 or a Windows code page (or is it no CSV file?)"
        )
    })
}

/// What parts the names of the first line where commas give no name of a field.
pub fn other_separator(text: &str) -> Option<&'static str> {
    let first = text.lines().find(|line| !line.trim().is_empty())?;
    let first = first.trim_start_matches('\u{FEFF}');
    let has_name = |separator: char| {
        let mut names = first.split(separator);
        names.any(|name| field_named(detail::FIELDS, name.trim_matches('"')).is_some())
    };
    if has_name(',') {
        return None;
    }
    let others = [(';', "semicolons"), ('\t', "tabs"), ('|', "bars")];
    let found = others.into_iter().find(|(other, _)| has_name(*other));
    found.map(|(_, words)| words)
}

#[cfg(test)]
mod tests {
    use super::*;

    #[test]
    fn texts_in_other_forms() {
        let of = |bytes: &[u8]| text_of(bytes.to_vec());
        assert_eq!(of("ssn\nÜ".as_bytes()).as_deref(), Ok("ssn\nÜ"));
        assert_eq!(of(b"").as_deref(), Ok(""));
        for utf_16 in [&b"\xFF\xFEs\0"[..], b"\xFE\xFF\0s", b"s\0s\0n\0"] {
            let wrong = of(utf_16).expect_err("it is no UTF-8");
            assert!(
                wrong.starts_with("line 1: the file is in UTF-16"),
                "{wrong}"
            );
        }
        let wrong = of(b"ssn\nA\nM\xDCLLER\n").expect_err("it is no UTF-8");
        let words = "line 3 is no text in UTF-8: byte 7 of the file is hexadecimal DC; save";
        assert!(wrong.starts_with(words), "{wrong}");
    }

    #[test]
    fn separators() {
        for (text, words) in [
            ("ssn;case_id\n1;2\n", Some("semicolons")),
            ("\u{FEFF}\"SSN\";\"Case ID\"\n", Some("semicolons")),
            ("ssn\tcase_id\n", Some("tabs")),
            ("\nssn|case_id\n", Some("bars")),
            ("ssn,case_id\n1;2\n", None),
            ("ssn\n", None),
            ("OH;1;2\n", None),
            ("", None),
        ] {
            assert_eq!(other_separator(text), words, "{text}");
        }
    }
}
