//! Characters of files in EBCDIC and ASCII. Every code comes from the library's own conversion.

use std::sync::LazyLock;

use fantanolive::{to_ascii, to_ebcdic, NotConverted};

/// What the text of a file is in.
#[derive(Clone, Copy, Debug, PartialEq, Eq)]
pub enum Charset {
    Ebcdic,
    Ascii,
    /// ASCII with a line end behind each record.
    Lines,
}

impl Charset {
    pub fn is_ascii(self) -> bool {
        self != Charset::Ebcdic
    }
}

/// The ASCII character of each byte; 0, which is none, for one that is no character.
type Characters = [u8; 256];

fn characters(character: impl Fn(u8, &mut [u8]) -> Result<(), NotConverted>) -> Characters {
    let mut characters = [0; 256];
    for (byte, place) in (0..=255).zip(&mut characters) {
        let mut out = [0];
        *place = character(byte, &mut out).map_or(0, |()| out[0]);
    }
    characters
}

static OF_EBCDIC: LazyLock<Characters> =
    LazyLock::new(|| characters(|byte, out| to_ascii(&[byte], out)));

/// Those that have a counterpart in EBCDIC.
static OF_ASCII: LazyLock<Characters> = LazyLock::new(|| {
    characters(|byte, out| {
        to_ebcdic(&[byte], out)?;
        out[0] = byte;
        Ok(())
    })
});

/// The character of each byte, or none.
#[derive(Clone, Copy)]
pub struct Decoder {
    characters: &'static Characters,
    /// The one byte that is a space.
    space: u8,
    pub charset: Charset,
}

impl Decoder {
    pub fn new(charset: Charset) -> Decoder {
        let (characters, space) = match charset {
            Charset::Ebcdic => (&*OF_EBCDIC, code(b' ')),
            _ => (&*OF_ASCII, b' '),
        };
        Decoder {
            characters,
            space,
            charset,
        }
    }

    pub fn character(&self, byte: u8) -> Option<u8> {
        let character = self.characters[usize::from(byte)];
        (character != 0).then_some(character)
    }

    /// The text of bytes, in a place that is as long at least; none where one of them is no character.
    pub fn text<'a>(&self, bytes: &[u8], place: &'a mut [u8]) -> Option<&'a str> {
        let text = &mut place[..bytes.len()];
        let mut are_characters = true;
        for (character, &byte) in text.iter_mut().zip(bytes) {
            *character = self.characters[usize::from(byte)];
            are_characters &= *character != 0;
        }
        let text = are_characters.then(|| str::from_utf8(text).ok());
        text.flatten()
    }

    /// Bytes without the spaces at their end.
    pub fn without_spaces<'a>(&self, bytes: &'a [u8]) -> &'a [u8] {
        let mut rest = bytes;
        while let Some((front, last)) = rest.split_last_chunk::<8>() {
            if *last != [self.space; 8] {
                break;
            }
            rest = front;
        }
        let spaces = rest.iter().rev().take_while(|&&byte| byte == self.space);
        &rest[..rest.len() - spaces.count()]
    }
}

/// Bytes that are converted at a time.
const PART: usize = 1 << 13;

type Conversion = fn(&[u8], &mut [u8]) -> Result<(), NotConverted>;

/// The conversion of a file to a character set.
fn conversion_to(charset: Charset) -> Conversion {
    match charset {
        Charset::Ebcdic => to_ebcdic,
        _ => to_ascii,
    }
}

/// Converts bytes where they stand, a part at a time. With refusal 16 the answer is the place of the first byte without a
/// counterpart, and the parts before it are converted.
pub fn convert(bytes: &mut [u8], to: Charset) -> Result<(), u64> {
    let conversion = conversion_to(to);
    let mut out = vec![0; PART.min(bytes.len())];
    let mut before = 0;
    for part in bytes.chunks_mut(PART) {
        let out = &mut out[..part.len()];
        if let Err(NotConverted::NoCounterpart { place }) = conversion(part, out) {
            return Err(before + place);
        }
        part.copy_from_slice(out);
        before += part.len() as u64;
    }
    Ok(())
}

/// The code in EBCDIC of each character; 0 for one without a counterpart.
static CODES: LazyLock<[u8; 256]> =
    LazyLock::new(|| characters(|byte, out| to_ebcdic(&[byte], out)));

/// An argument in EBCDIC. A byte without a counterpart becomes 00, which no field may hold, so that the call refuses it.
pub fn argument(text: &[u8]) -> Vec<u8> {
    text.iter().map(|&byte| code(byte)).collect()
}

/// The same of one byte.
pub fn code(byte: u8) -> u8 {
    CODES[usize::from(byte)]
}

/// Whether bytes are ASCII rather than EBCDIC, for a hint: they are printable there, and the library finds some that are no
/// characters in EBCDIC.
pub fn looks_ascii(bytes: &[u8]) -> bool {
    let is_text = |&byte: &u8| matches!(byte, b' '..=b'~' | b'\n' | b'\r' | b'\t');
    bytes.iter().all(is_text) && to_ascii(bytes, &mut vec![0; bytes.len()]).is_err()
}

#[cfg(test)]
mod tests {
    use super::*;

    #[test]
    fn decoders_have_46_characters() {
        for charset in [Charset::Ebcdic, Charset::Ascii] {
            let decoder = Decoder::new(charset);
            let known = (0..=255).filter(|&byte| decoder.character(byte).is_some());
            assert_eq!(known.count(), 46);
            let spaces: Vec<u8> = (0..=255)
                .filter(|&byte| decoder.character(byte) == Some(b' '))
                .collect();
            assert_eq!(spaces, [decoder.space]);
        }
        assert_eq!(Decoder::new(Charset::Ebcdic).character(0xC1), Some(b'A'));
        assert_eq!(Decoder::new(Charset::Ascii).character(b'A'), Some(b'A'));
        assert_eq!(Decoder::new(Charset::Ascii).character(b'a'), None);
    }

    #[test]
    fn spaces_at_the_end() {
        let decoder = Decoder::new(Charset::Ascii);
        for (front, spaces) in (0..20).flat_map(|front| (0..20).map(move |end| (front, end))) {
            let text = format!("{:>front$}{:spaces$}", "A", "");
            let front = &text[..text.len() - spaces];
            assert_eq!(decoder.without_spaces(text.as_bytes()), front.as_bytes());
        }
        assert_eq!(decoder.without_spaces(&[b' '; 17]), []);
        assert_eq!(decoder.without_spaces(&[]), []);
    }

    #[test]
    fn places_are_those_of_the_whole() {
        let mut bytes = vec![b'A'; 2 * PART + 5];
        bytes[PART + 7] = b'\n';
        assert_eq!(convert(&mut bytes, Charset::Ebcdic), Err(PART as u64 + 7));
        let mut bytes = vec![b'A'; 2 * PART + 5];
        assert_eq!(convert(&mut bytes, Charset::Ebcdic), Ok(()));
        assert_eq!(bytes, vec![0xC1; 2 * PART + 5]);
        assert_eq!(convert(&mut [], Charset::Ascii), Ok(()));
    }

    #[test]
    fn arguments_without_counterpart() {
        assert_eq!(argument(b"OHx"), [0xD6, 0xC8, 0]);
    }

    #[test]
    fn ascii_is_told_from_ebcdic() {
        assert!(looks_ascii(b"OH 123") && looks_ascii(b"Oh 123"));
        assert!(!looks_ascii(b"@@@") && !looks_ascii(&[0, 1]));
        assert!(!looks_ascii(&[0xD6, 0xC8, 0x40, 0xF1]));
        assert!(!looks_ascii(&[]));
    }
}
