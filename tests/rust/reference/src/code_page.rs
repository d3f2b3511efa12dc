//! Document 02, item 1: files turned from ASCII into EBCDIC and back.

/// The characters besides letters and digits, with their codes in code page 037.
const SIGNS: [(u8, u8); 10] = [
    (b' ', 0x40),
    (b'-', 0x60),
    (b',', 0x6B),
    (b'.', 0x4B),
    (b'(', 0x4D),
    (b')', 0x5D),
    (b'/', 0x61),
    (b'&', 0x50),
    (b'\'', 0x7D),
    (b'#', 0x7B),
];

/// Why a file was not converted; nothing is written then.
#[derive(Clone, Copy, Debug, PartialEq, Eq)]
pub enum Refusal {
    /// 16: the place, from 0, of the first byte without a counterpart.
    NoCounterpart(u64),
    /// 17: an output shorter than the input.
    TooShort,
}

impl Refusal {
    pub fn number(self) -> u64 {
        match self {
            Refusal::NoCounterpart(_) => 16,
            Refusal::TooShort => 17,
        }
    }
}

/// The EBCDIC code of an ASCII byte.
pub fn ebcdic(byte: u8) -> Option<u8> {
    match byte {
        b'A'..=b'I' => Some(byte - b'A' + 0xC1),
        b'J'..=b'R' => Some(byte - b'J' + 0xD1),
        b'S'..=b'Z' => Some(byte - b'S' + 0xE2),
        b'0'..=b'9' => Some(byte - b'0' + 0xF0),
        _ => SIGNS
            .iter()
            .find(|&&(ascii, _)| ascii == byte)
            .map(|&(_, ebcdic)| ebcdic),
    }
}

/// The ASCII code of an EBCDIC byte: the byte whose EBCDIC code it is.
pub fn ascii(byte: u8) -> Option<u8> {
    (0..=0xFF).find(|&other| ebcdic(other) == Some(byte))
}

fn convert(code: fn(u8) -> Option<u8>, input: &[u8], out: &mut [u8]) -> Result<(), Refusal> {
    if let Some(place) = input.iter().position(|&byte| code(byte).is_none()) {
        return Err(Refusal::NoCounterpart(place as u64));
    }
    if out.len() < input.len() {
        return Err(Refusal::TooShort);
    }
    for (to, code) in out
        .iter_mut()
        .zip(input.iter().filter_map(|&byte| code(byte)))
    {
        *to = code;
    }
    Ok(())
}

pub fn to_ebcdic(input: &[u8], out: &mut [u8]) -> Result<(), Refusal> {
    convert(ebcdic, input, out)
}

pub fn to_ascii(input: &[u8], out: &mut [u8]) -> Result<(), Refusal> {
    convert(ascii, input, out)
}
