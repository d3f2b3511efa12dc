//! Converting through the library: every byte value against the published code page 037 and
//! against the reference, and the edges of refusals 16 and 17 by hand.

use fantanolive::raw;

/// Code page 037 as published: the ISO 8859-1 code of each EBCDIC byte.
#[rustfmt::skip]
const PUBLISHED: [u8; 256] = [
    0x00, 0x01, 0x02, 0x03, 0x9C, 0x09, 0x86, 0x7F, 0x97, 0x8D, 0x8E, 0x0B, 0x0C, 0x0D, 0x0E, 0x0F,
    0x10, 0x11, 0x12, 0x13, 0x9D, 0x85, 0x08, 0x87, 0x18, 0x19, 0x92, 0x8F, 0x1C, 0x1D, 0x1E, 0x1F,
    0x80, 0x81, 0x82, 0x83, 0x84, 0x0A, 0x17, 0x1B, 0x88, 0x89, 0x8A, 0x8B, 0x8C, 0x05, 0x06, 0x07,
    0x90, 0x91, 0x16, 0x93, 0x94, 0x95, 0x96, 0x04, 0x98, 0x99, 0x9A, 0x9B, 0x14, 0x15, 0x9E, 0x1A,
    0x20, 0xA0, 0xE2, 0xE4, 0xE0, 0xE1, 0xE3, 0xE5, 0xE7, 0xF1, 0xA2, 0x2E, 0x3C, 0x28, 0x2B, 0x7C,
    0x26, 0xE9, 0xEA, 0xEB, 0xE8, 0xED, 0xEE, 0xEF, 0xEC, 0xDF, 0x21, 0x24, 0x2A, 0x29, 0x3B, 0xAC,
    0x2D, 0x2F, 0xC2, 0xC4, 0xC0, 0xC1, 0xC3, 0xC5, 0xC7, 0xD1, 0xA6, 0x2C, 0x25, 0x5F, 0x3E, 0x3F,
    0xF8, 0xC9, 0xCA, 0xCB, 0xC8, 0xCD, 0xCE, 0xCF, 0xCC, 0x60, 0x3A, 0x23, 0x40, 0x27, 0x3D, 0x22,
    0xD8, 0x61, 0x62, 0x63, 0x64, 0x65, 0x66, 0x67, 0x68, 0x69, 0xAB, 0xBB, 0xF0, 0xFD, 0xFE, 0xB1,
    0xB0, 0x6A, 0x6B, 0x6C, 0x6D, 0x6E, 0x6F, 0x70, 0x71, 0x72, 0xAA, 0xBA, 0xE6, 0xB8, 0xC6, 0xA4,
    0xB5, 0x7E, 0x73, 0x74, 0x75, 0x76, 0x77, 0x78, 0x79, 0x7A, 0xA1, 0xBF, 0xD0, 0xDD, 0xDE, 0xAE,
    0x5E, 0xA3, 0xA5, 0xB7, 0xA9, 0xA7, 0xB6, 0xBC, 0xBD, 0xBE, 0x5B, 0x5D, 0xAF, 0xA8, 0xB4, 0xD7,
    0x7B, 0x41, 0x42, 0x43, 0x44, 0x45, 0x46, 0x47, 0x48, 0x49, 0xAD, 0xF4, 0xF6, 0xF2, 0xF3, 0xF5,
    0x7D, 0x4A, 0x4B, 0x4C, 0x4D, 0x4E, 0x4F, 0x50, 0x51, 0x52, 0xB9, 0xFB, 0xFC, 0xF9, 0xFA, 0xFF,
    0x5C, 0xF7, 0x53, 0x54, 0x55, 0x56, 0x57, 0x58, 0x59, 0x5A, 0xB2, 0xD4, 0xD6, 0xD2, 0xD3, 0xD5,
    0x30, 0x31, 0x32, 0x33, 0x34, 0x35, 0x36, 0x37, 0x38, 0x39, 0xB3, 0xDB, 0xDC, 0xD9, 0xDA, 0x9F,
];
const CHARACTERS: &[u8; 46] = b"ABCDEFGHIJKLMNOPQRSTUVWXYZ0123456789 -,.()/&'#";
/// What the place holds before a call.
const KEPT: u64 = 77;

type Call = fn(&[u8], &mut [u8], &mut u64) -> u64;

/// Answer, place and output of a call on a marked output of some length.
fn called(call: Call, input: &[u8], room: usize) -> (u64, u64, Vec<u8>) {
    let mut out = vec![0xEE; room];
    let mut place = KEPT;
    let answer = call(input, &mut out, &mut place);
    (answer, place, out)
}

/// What one byte comes to: its counterpart, or refusal 16 at place 0.
fn alone(counterpart: Option<u8>) -> (u64, u64, Vec<u8>) {
    match counterpart {
        Some(code) => (0, KEPT, vec![code]),
        None => (16, 0, vec![0xEE]),
    }
}

#[test]
fn every_byte_by_the_published_page() {
    let mut accepted = 0;
    for byte in 0..=0xFF {
        let character = PUBLISHED[usize::from(byte)];
        let ascii = CHARACTERS.contains(&character).then_some(character);
        assert_eq!(called(raw::to_ascii, &[byte], 1), alone(ascii));
        let ebcdic = (0..=0xFF)
            .find(|&other| PUBLISHED[usize::from(other)] == byte)
            .filter(|_| CHARACTERS.contains(&byte));
        assert_eq!(called(raw::to_ebcdic, &[byte], 1), alone(ebcdic));
        accepted += usize::from(ascii.is_some()) + usize::from(ebcdic.is_some());
    }
    assert_eq!(accepted, 2 * 46);
}

#[test]
fn every_byte_by_the_reference() {
    for byte in 0..=0xFF {
        let ebcdic = reference::code_page::ebcdic(byte);
        assert_eq!(called(raw::to_ebcdic, &[byte], 1), alone(ebcdic));
        let ascii = reference::code_page::ascii(byte);
        assert_eq!(called(raw::to_ascii, &[byte], 1), alone(ascii));
    }
}

#[test]
fn an_empty_file() {
    for call in [raw::to_ebcdic, raw::to_ascii] {
        assert_eq!(called(call, b"", 0), (0, KEPT, vec![]));
        assert_eq!(called(call, b"", 3), (0, KEPT, vec![0xEE; 3]));
    }
}

#[test]
fn the_output_s_length() {
    let ebcdic = [0xE2, 0xD4, 0xC9, 0xE3, 0xC8];
    let kept = |bytes: &[u8], behind: usize| [bytes, &vec![0xEE; behind]].concat();
    for (call, input, out) in [
        (raw::to_ebcdic as Call, b"SMITH", &ebcdic),
        (raw::to_ascii, &ebcdic, b"SMITH"),
    ] {
        assert_eq!(called(call, input, 0), (17, KEPT, vec![]));
        assert_eq!(called(call, input, 4), (17, KEPT, vec![0xEE; 4]));
        assert_eq!(called(call, input, 5), (0, KEPT, out.to_vec()));
        assert_eq!(called(call, input, 6), (0, KEPT, kept(out, 1)));
        assert_eq!(called(call, input, 99), (0, KEPT, kept(out, 94)));
    }
}

#[test]
fn a_bad_byte_first_last_and_twice() {
    for (call, good, bad) in [
        (raw::to_ebcdic as Call, b'A', b'a'),
        (raw::to_ascii, 0xC1, 0x81),
    ] {
        for length in [1, 2, 7, 8, 9, 63, 64, 65, 127, 128, 129, 245, 1000] {
            let spoilt = |places: &[usize]| {
                let mut input = vec![good; length];
                for &at in places {
                    input[at] = bad;
                }
                called(call, &input, length)
            };
            let refused = |place: usize| (16, place as u64, vec![0xEE; length]);
            for at in 0..length {
                assert_eq!(spoilt(&[at]), refused(at));
                assert_eq!(spoilt(&[at, length - 1]), refused(at));
            }
            assert_eq!(spoilt(&[length / 2, length - 1]), refused(length / 2));
        }
    }
}

#[test]
fn refusal_16_before_17() {
    for (call, input) in [
        (raw::to_ebcdic as Call, b"SMITH\n"),
        (raw::to_ascii, b"\xE2\xD4\xC9\xE3\xC8\x15"),
    ] {
        for room in 0..6 {
            assert_eq!(called(call, input, room), (16, 5, vec![0xEE; room]));
        }
    }
}

#[test]
fn there_and_back() {
    let file: Vec<u8> = CHARACTERS.iter().copied().cycle().take(5000).collect();
    let (answer, _, ebcdic) = called(raw::to_ebcdic, &file, file.len());
    assert_eq!(answer, 0);
    let (answer, _, ascii) = called(raw::to_ascii, &ebcdic, file.len());
    assert_eq!((answer, &ascii), (0, &file));
    let (answer, _, again) = called(raw::to_ebcdic, &ascii, file.len());
    assert_eq!((answer, again), (0, ebcdic));
}
