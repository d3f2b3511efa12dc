//! The refusals and codes in words. They stand in `include/fantanolive_text.h`; the build script reads them from there, and the
//! version from `include/fantanolive.h`.

use crate::raw;

/// A refusal or a code in words for people.
#[derive(Clone, Copy, Debug, PartialEq, Eq)]
pub struct Text {
    /// The number of the refusal or code.
    pub number: u32,
    /// What is wrong.
    pub wrong: &'static str,
    /// Where: which columns, or which argument.
    pub location: &'static str,
    /// How to mend it.
    pub mend: &'static str,
}

include!(concat!(env!("OUT_DIR"), "/texts.rs"));

/// The version of the library that this wrapper goes with.
pub const VERSION: &str = VERSION_TEXT;

/// The version of the library that is there at run time.
pub fn library_version() -> &'static str {
    raw::version().to_str().unwrap_or_default()
}

fn text_in(texts: &'static [Text], number: u64) -> Option<&'static Text> {
    texts.iter().find(|text| u64::from(text.number) == number)
}

/// The words of a refusal; none for a number that is no refusal's.
pub fn refusal_text(number: u64) -> Option<&'static Text> {
    text_in(REFUSAL_TEXTS, number)
}

/// The words of a code of a verdict; none for a number that is no code's.
pub fn code_text(code: u32) -> Option<&'static Text> {
    text_in(CODE_TEXTS, u64::from(code))
}
