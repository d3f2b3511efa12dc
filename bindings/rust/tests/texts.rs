//! The numbers and words of refusals and codes, and the version, against the C headers as they stand.

use std::fs;
use std::path::Path;

use fantanolive::{
    code_text, codes, has_code, library_version, refusal_text, Refusal, ERRORS, VERSION, WARNINGS,
};

fn header(name: &str) -> String {
    let path = Path::new(env!("CARGO_MANIFEST_DIR"))
        .join("../../include")
        .join(name);
    fs::read_to_string(path).expect("the header is there")
}

#[test]
fn numbers_of_refusals() {
    for number in 1..=33 {
        let refusal = Refusal::of_number(number).expect("1 to 33 are refusals");
        assert_eq!(refusal.number(), number);
        assert_eq!(u64::from(refusal.text().number), number);
    }
    assert_eq!(Refusal::of_number(0), None);
    assert_eq!(Refusal::of_number(34), None);
    assert!(refusal_text(0).is_none() && refusal_text(34).is_none());
}

#[test]
fn refusals_have_their_words() {
    let text = Refusal::NoSuchRow.text();
    assert_eq!(text.wrong, "no row has this key");
    assert_eq!(text.location, "find: the key");
    assert!(text.mend.starts_with("check state, SSN and case type"));
    assert_eq!(
        Refusal::NoSuchRow.to_string(),
        "refused 15: no row has this key"
    );
}

#[test]
fn every_code_has_its_words() {
    let words = |code: u32| code_text(code).map(|text| text.number);
    for code in (1..=18).chain([51, 52]) {
        assert_eq!(words(code), Some(code));
    }
    for code in [0, 19, 50, 53, 63, 64] {
        assert_eq!(words(code), None);
    }
    let text = code_text(17).expect("17 is a code");
    assert_eq!(text.wrong, "last name differs from the stored one");
    assert!(text.location.starts_with("columns 30-33"));
}

#[test]
fn every_string_of_the_header_is_taken() {
    let header = header("fantanolive_text.h");
    let refusals = Refusal::ALL.into_iter().map(Refusal::text);
    let texts: Vec<_> = refusals.chain((1..64).filter_map(code_text)).collect();
    for text in &texts {
        for words in [text.wrong, text.location, text.mend] {
            assert!(header.contains(&format!("\"{words}\"")), "{words}");
        }
    }
    let strings = header.lines().filter(|line| line.starts_with("     \""));
    assert_eq!(strings.count(), 3 * texts.len());
}

#[test]
fn version_of_the_header() {
    assert!(header("fantanolive.h").contains(&format!("FANTANOLIVE_VERSION \"{VERSION}\"")));
    assert_eq!(library_version(), VERSION);
}

#[test]
fn codes_of_verdicts() {
    assert_eq!(codes(0).count(), 0);
    assert!(codes(ERRORS).eq(1..=18));
    assert!(codes(WARNINGS).eq([51, 52]));
    assert!(codes(u64::MAX).eq(0..64));
    assert!(has_code(1 << 17, 17) && !has_code(1 << 17, 16));
    assert!(!has_code(u64::MAX, 64));
}
