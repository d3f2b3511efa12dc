//! to_ebcdic and to_ascii through the wrapper: the example batch there and back, places of bad bytes, short and long outputs.

mod text;

use fantanolive::{to_ascii, to_ebcdic, NotConverted, Refusal};
use text::paper_batch;

#[test]
fn paper_batch_there_and_back() {
    let batch = paper_batch();
    let mut ascii = vec![0; batch.len()];
    assert_eq!(to_ascii(&batch, &mut ascii), Ok(()));
    assert!(ascii.starts_with(b"OH   123456789               SMITH"));
    let mut back = vec![0xAA; batch.len() + 2];
    assert_eq!(to_ebcdic(&ascii, &mut back), Ok(()));
    assert_eq!(back, [batch, vec![0xAA; 2]].concat());
}

#[test]
fn the_first_bad_byte_is_told() {
    let mut out = [7; 4];
    let no_counterpart = |place| Err(NotConverted::NoCounterpart { place });
    assert_eq!(to_ebcdic(b"AbCd", &mut out), no_counterpart(1));
    assert_eq!(to_ebcdic(b"ABC\n", &mut out), no_counterpart(3));
    assert_eq!(to_ascii(&[0xC1, 0xC2, 0x00], &mut out), no_counterpart(2));
    // looked for before the output's length is
    assert_eq!(to_ebcdic(b"ABCDEFGHIJ\n", &mut out), no_counterpart(10));
    assert_eq!(out, [7; 4]);
}

#[test]
fn short_outputs_and_empty_files() {
    let mut out = [7; 2];
    assert_eq!(to_ebcdic(b"ABC", &mut out), Err(NotConverted::ShortFile));
    assert_eq!(to_ascii(&[0xC1; 3], &mut out), Err(NotConverted::ShortFile));
    assert_eq!(out, [7; 2]);
    assert_eq!(to_ebcdic(&[], &mut []), Ok(()));
    assert_eq!(to_ascii(&[], &mut []), Ok(()));
}

#[test]
fn refusals_and_words() {
    let bad = NotConverted::NoCounterpart { place: 3 };
    assert_eq!(bad.refusal(), Refusal::NoCounterpart);
    assert!(bad.to_string().starts_with("refused 16: "));
    assert!(bad.to_string().ends_with("(byte 3)"));
    assert_eq!(NotConverted::ShortFile.refusal().number(), 17);
}
