//! Refusals as errors, with their words.

use std::error::Error;
use std::fmt;

use crate::header::Refusal;
use crate::texts::{refusal_text, Text};

/// The words of [`Refusal::Unknown`].
static UNKNOWN: Text = Text {
    number: 0,
    wrong: "a refusal that this version of the crate doesn't know",
    location: "the library",
    mend: "use the crate and the library of one version",
};

impl Refusal {
    /// The refusal's number.
    pub fn number(self) -> u64 {
        self as u64
    }

    /// The refusal of a number; none for a number that no call answers.
    pub fn of_number(number: u64) -> Option<Refusal> {
        Refusal::ALL
            .into_iter()
            .find(|refusal| refusal.number() == number)
    }

    /// The refusal in words: what is wrong, where, and how to mend it.
    pub fn text(self) -> &'static Text {
        refusal_text(self.number()).unwrap_or(&UNKNOWN)
    }
}

impl fmt::Display for Refusal {
    fn fmt(&self, f: &mut fmt::Formatter<'_>) -> fmt::Result {
        write!(f, "refused {}: {}", self.number(), self.text().wrong)
    }
}

impl Error for Refusal {}

/// Why a file was not converted.
#[derive(Clone, Copy, Debug, PartialEq, Eq, Hash)]
pub enum NotConverted {
    /// Refusal 16: a byte has no counterpart.
    NoCounterpart {
        /// The place of the first such byte, the first byte of the input being 0.
        place: u64,
    },
    /// Refusal 17: output shorter than the input.
    ShortFile,
}

impl NotConverted {
    /// The refusal, without its place.
    pub fn refusal(self) -> Refusal {
        match self {
            NotConverted::NoCounterpart { .. } => Refusal::NoCounterpart,
            NotConverted::ShortFile => Refusal::ShortFile,
        }
    }
}

impl fmt::Display for NotConverted {
    fn fmt(&self, f: &mut fmt::Formatter<'_>) -> fmt::Result {
        match self {
            NotConverted::NoCounterpart { place } => write!(f, "{} (byte {place})", self.refusal()),
            NotConverted::ShortFile => self.refusal().fmt(f),
        }
    }
}

impl Error for NotConverted {}

/// What an answer of the library stands for: 0 is done, the others are refusals.
pub(crate) fn done(answer: u64) -> Result<(), Refusal> {
    match answer {
        0 => Ok(()),
        number => Err(Refusal::of_number(number).unwrap_or(Refusal::Unknown)),
    }
}
