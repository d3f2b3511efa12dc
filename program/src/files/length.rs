//! What the length of a file tells where the library refuses it: what is left over, and the likely cause.

use crate::code_page::{looks_ascii, Charset};
use crate::failure::{counted, grouped};
use crate::files::read::Input;
use crate::records::kinds::FileKind;

/// Line ends by their name and bytes; 15 and 25 are those of EBCDIC.
const LINE_ENDS: [(&str, &[u8]); 6] = [
    ("a line feed (LF)", b"\n"),
    ("a carriage return and a line feed (CR LF)", b"\r\n"),
    ("a carriage return (CR)", b"\r"),
    ("an EBCDIC new line (hexadecimal 15)", &[0x15]),
    ("an EBCDIC line feed (hexadecimal 25)", &[0x25]),
    (
        "a carriage return and an EBCDIC line feed (hexadecimal 0D 25)",
        &[0x0D, 0x25],
    ),
];

/// The line end that stands behind every record, where one does; the last may lack it.
fn line_ends(bytes: &[u8], width: usize) -> Option<&'static str> {
    let behind_each = |end: &[u8]| {
        let mut records = bytes.chunks(width + end.len());
        let whole = |part: &[u8]| part.len() == width + end.len() && part.ends_with(end);
        let last = |part: &[u8]| whole(part) || part.len() == width;
        match (records.next_back(), records.len()) {
            (Some(part), 0) => whole(part),
            (Some(part), _) => last(part) && records.all(whole),
            (None, _) => false,
        }
    };
    let found = LINE_ENDS.iter().find(|(_, end)| behind_each(end));
    found.map(|(name, _)| *name)
}

/// Whether the front of a file is in ASCII although it is taken for EBCDIC.
fn is_ascii(input: &Input) -> bool {
    let front = &input.bytes[..input.read.min(input.kind.width)];
    input.charset == Charset::Ebcdic && looks_ascii(front)
}

/// What to do with a file in ASCII.
fn ascii_note(input: &Input) -> String {
    format!(
        "{}: likely cause: the file is in ASCII; use --ascii, or convert it with `fantanolive to-ebcdic`",
        input.name()
    )
}

/// Notes on a file that was refused as a whole or at its last record.
pub fn of_file(input: &Input) -> Vec<String> {
    let mut notes = of_length(input);
    if is_ascii(input) {
        notes.push(ascii_note(input));
    }
    notes
}

/// Notes on a length that is wrong; none where it is right.
pub fn of_length(input: &Input) -> Vec<String> {
    let (path, kind) = (input.name(), input.kind);
    let over = input.length % kind.width as u64;
    let whole = input.length / kind.width as u64;
    if whole > kind.most as u64 {
        return vec![format!("{path}: {}", too_long(input.length, kind))];
    }
    if input.length == 0 {
        return vec![format!("{path}: the file is empty")];
    }
    let mut notes = Vec::new();
    if over > 0 {
        notes.push(format!(
            "{path}: {}: {} of {} bytes and {} over",
            counted(input.length, "byte"),
            counted(whole, kind.record),
            kind.width,
            counted(over, "byte"),
        ));
    }
    if let Some(cause) = likely_cause(input, over > 0) {
        notes.push(format!("{path}: likely cause: {cause}"));
    }
    notes
}

/// Why a file has another length than it should. Line ends may give it one that is right by chance.
fn likely_cause(input: &Input, is_wrong: bool) -> Option<String> {
    let (bytes, kind) = (&input.bytes[..input.read], input.kind);
    if let Some(end) = line_ends(bytes, kind.width) {
        let record = kind.record;
        let is_text = is_ascii(input) || input.charset.is_ascii();
        let what = match (is_text, kind.takes_ascii()) {
            (true, true) => "use --lines",
            (true, false) => "and it is in ASCII, which a file of this kind never is",
            (false, _) => "take them out",
        };
        return Some(format!(
            "line ends: {end} stands behind every {record}; {what}"
        ));
    }
    if !is_wrong || !is_ascii(input) {
        let cut_off = "the file was cut off, or is of another kind";
        return is_wrong.then(|| cut_off.to_string());
    }
    if !kind.takes_ascii() {
        return Some("it is in ASCII, which a file of this kind never is".to_string());
    }
    let lines = bytes.iter().filter(|&&byte| byte == b'\n').count() as u64;
    (lines > 0).then(|| {
        let lines = counted(lines, "line");
        let width = kind.width;
        format!("line ends: {lines} of other lengths than {width} bytes; --lines fills them with spaces")
    })
}

/// A length beyond the limit.
pub fn too_long(length: u64, kind: &FileKind) -> String {
    format!(
        "{}: beyond the {} of {} bytes that a file of this kind may have",
        counted(length, "byte"),
        counted(kind.most as u64, kind.record),
        kind.width,
    )
}

/// What a byte without a counterpart may be, with those behind it.
pub fn byte_words(bytes: &[u8], is_first: bool) -> String {
    let Some(&byte) = bytes.first() else {
        return String::new();
    };
    let words = match byte {
        0xEF if is_first && bytes.starts_with(b"\xEF\xBB\xBF") => {
            ", a byte order mark (UTF-8): save the file as plain ASCII"
        }
        0xFE | 0xFF if is_first => ", a byte order mark (UTF-16): save the file as plain ASCII",
        b'\n' => ", a line feed: --lines takes files of lines",
        b'\r' => ", a carriage return: --lines takes files of lines",
        b'\t' => ", a tab: put spaces in its place",
        b'a'..=b'z' => ", a lower case letter: use upper case",
        0x80.. => return of_other_alphabet(bytes),
        _ => "",
    };
    words.to_string()
}

/// A character that is none of ASCII's, or a byte that may be one of EBCDIC.
fn of_other_alphabet(bytes: &[u8]) -> String {
    let front = &bytes[..bytes.len().min(4)];
    let valid = match std::str::from_utf8(front) {
        Ok(text) => text,
        Err(error) => std::str::from_utf8(&front[..error.valid_up_to()]).unwrap_or(""),
    };
    match valid.chars().next() {
        Some(c) => format!(", the character '{c}' in UTF-8: use A to Z"),
        None => ", no ASCII byte: is the file in EBCDIC already?".to_string(),
    }
}

/// The place of a byte in its record, and what it may be.
pub fn place_note(place: u64, byte: u8, kind: Option<&FileKind>) -> String {
    let within = kind.map_or(String::new(), |kind| {
        let width = kind.width as u64;
        let record = grouped(place / width + 1);
        format!(" ({} {record}, column {})", kind.record, place % width + 1)
    });
    format!("byte {place}{within} is hexadecimal {byte:02X}")
}

/// Notes on the first byte without a counterpart of a file in ASCII; `behind` is the byte behind its first record, before any
/// conversion.
pub fn of_place(input: &Input, place: u64, behind: Option<u8>) -> Vec<String> {
    let at = usize::try_from(place).unwrap_or_default();
    let rest = &input.bytes[at..input.read];
    let byte = rest.first().copied().unwrap_or_default();
    let has_line_ends = matches!(behind, Some(b'\n' | b'\r'));
    // the first line end stands behind the first record
    let kind = (!has_line_ends || at < input.kind.width).then_some(input.kind);
    let note = place_note(place, byte, kind);
    let words = match byte {
        b'\r' if input.of_lines => ", a carriage return that ends no line: take it out".to_string(),
        _ => byte_words(rest, at == 0),
    };
    vec![format!("{}: {note}{words}", input.name())]
}

#[cfg(test)]
mod tests {
    use super::*;

    #[test]
    fn line_ends_are_seen() {
        assert!(line_ends(b"ABC\nDEF\n", 3).is_some_and(|end| end.contains("(LF)")));
        assert!(line_ends(b"ABC\nDEF", 3).is_some_and(|end| end.contains("(LF)")));
        assert!(line_ends(b"ABC\r\nDEF\r\n", 3).is_some_and(|end| end.contains("CR LF")));
        assert!(line_ends(&[1, 2, 3, 0x25], 3).is_some_and(|end| end.contains("25")));
        for none in [
            &b"ABCDEF"[..],
            b"ABC\nDEFG",
            b"ABCD\nEF\n",
            b"",
            b"ABC",
            b"AB\n",
        ] {
            assert_eq!(line_ends(none, 3), None);
        }
    }

    #[test]
    fn places_in_records() {
        let kind = Some(&crate::records::kinds::BATCH);
        let note = place_note(245, b'\n', kind);
        assert_eq!(note, "byte 245 (record 2, column 1) is hexadecimal 0A");
        assert_eq!(place_note(7, 0, None), "byte 7 is hexadecimal 00");
    }
}
