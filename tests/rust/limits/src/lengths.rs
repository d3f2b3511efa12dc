//! Lengths above 32 bits: files converted, which have no limit.

use fantanolive::raw;
use reference::code_page::Refusal;
use sparse::{all, Mapping};

/// More bytes than 32 bits count.
const FAR: usize = (1 << 32) + 1024;

/// The same byte over and over.
fn filled(byte: u8, behind: usize) -> Mapping {
    Mapping::repeated(&[byte; 256], FAR / 256, behind)
}

/// A bad byte near the end, and its place.
pub fn refused() {
    let mut file = filled(b'A', 0);
    let place = FAR - 3;
    file[place] = b'a';
    let (mut given, mut out) = (0, Mapping::zeros(FAR));
    assert_eq!(raw::to_ebcdic(&file, &mut out, &mut given), 16);
    assert_eq!(given, place as u64);
    assert_eq!(
        reference::to_ebcdic(&file, &mut out),
        Err(Refusal::NoCounterpart(place as u64))
    );
    assert!(all(&out, 0));
}

/// Outputs whose bytes are alike may be on the same pages.
pub fn converted() {
    let (file, mut place) = (filled(b'A', 0), 77);
    let mut out = filled(0xEE, 1);
    assert_eq!(raw::to_ebcdic(&file, &mut out, &mut place), 0);
    assert!(all(&out[..FAR], 0xC1));
    let mut back = filled(0xEE, 1);
    assert_eq!(raw::to_ascii(&out[..FAR], &mut back, &mut place), 0);
    assert!(back[..FAR] == file[..] && back[FAR] == 0 && place == 77);
}
