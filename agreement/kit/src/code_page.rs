//! The characters of document 02, item 1, in EBCDIC.

use generator::files::{ASCII, EBCDIC};

/// The character of a byte.
pub fn character(byte: u8) -> Option<char> {
    let place = EBCDIC.iter().position(|&code| code == byte)?;
    Some(char::from(ASCII[place]))
}

/// The byte of a character.
pub fn byte(character: char) -> Option<u8> {
    let place = ASCII
        .iter()
        .position(|&code| char::from(code) == character)?;
    Some(EBCDIC[place])
}

/// Bytes as text; a dot stands for a byte that is none of the characters.
pub fn text(bytes: &[u8]) -> String {
    let shown = |&byte: &u8| character(byte).unwrap_or('.');
    bytes.iter().map(shown).collect()
}
