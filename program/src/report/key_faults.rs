//! What is wrong with a key, which is asked of the library part by part: each part beside others that are right.

use fantanolive::{find, Refusal, KEY};

use crate::code_page::Charset;
use crate::records::columns::{row, Field};
use crate::records::field::{Form, Placeholder};
use crate::records::made_up_case::live_row;
use crate::report::ssn_fault;

/// Whether the library takes a part of a key beside others that are right.
fn is_right(part: &Field, key: &[u8]) -> bool {
    let mut right = live_row();
    part.set(&mut right, part.of(key));
    find(&[], 0, &right[..KEY]) != Err(Refusal::UnsoundKey)
}

/// How a part is shown that may have an SSN where it doesn't belong.
fn masked() -> Form {
    let form = Form::new(Charset::Ebcdic, Placeholder::Dot, false);
    Form {
        digits_masked: true,
        ..form
    }
}

/// The parts of a key in EBCDIC that are wrong, with what stands there.
pub fn of_key(key: &[u8; KEY]) -> Vec<String> {
    let form = masked();
    let of_part = |(name, part): (&str, &Field)| {
        let value = form.field(part, key);
        (!is_right(part, key)).then(|| format!("its {name} '{value}' is none"))
    };
    let state = of_part(("state", &row::STATE));
    let ssn = ssn_fault::of_ssn(row::SSN.of(key)).map(|fault| format!("its SSN is none: {fault}"));
    let case_type = of_part(("case type", &row::CASE_TYPE));
    [state, ssn, case_type].into_iter().flatten().collect()
}

/// A key that may be none, without an SSN: digits are masked, but for the last four of an SSN that is one.
pub fn shown(key: &[u8; KEY], full: bool) -> String {
    let mut text = String::new();
    let parts = [row::STATE, row::SSN, row::CASE_TYPE];
    match full || is_right(&row::SSN, key) && is_right(&row::STATE, key) {
        true => Form::new(Charset::Ebcdic, Placeholder::Dot, full).put_key(&parts, key, &mut text),
        false => masked().put_text(key, &mut text),
    }
    text
}

#[cfg(test)]
mod tests {
    use super::*;
    use crate::code_page::argument;

    fn key(text: &str) -> [u8; KEY] {
        argument(text.as_bytes())
            .try_into()
            .expect("it is as long as a key")
    }

    #[test]
    fn parts_that_are_wrong() {
        for (text, faults, seen) in [
            ("OH123456789N", &[][..], "OH*****6789N"),
            ("XX123456789N", &["its state 'XX' is none"], "XX*********N"),
            (
                "OH123456789X",
                &["its case type 'X' is none"],
                "OH*****6789X",
            ),
            (
                "OH000456789N",
                &["its SSN is none: area 000"],
                "OH*********N",
            ),
            (
                "123456789OHN",
                &["its state '**' is none", "its SSN is none: not nine digits"],
                "*********OHN",
            ),
        ] {
            assert_eq!(of_key(&key(text)), faults, "{text}");
            assert_eq!(shown(&key(text), false), seen);
            assert_eq!(shown(&key(text), true), text);
        }
    }
}
