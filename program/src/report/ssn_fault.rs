//! What is wrong with an SSN, without the number: its area, group or serial where that is never issued, or that it is not nine
//! digits. Each is asked of the library with the other parts in order.

use fantanolive::{find, Refusal};

use crate::code_page::{argument, Charset};
use crate::records::field::{Form, Placeholder};

/// Whether the library takes an SSN, in EBCDIC, as one that may be.
fn is_right(parts: &[&[u8]]) -> bool {
    let key = [&argument(b"OH"), &parts.concat()[..], &argument(b"N")].concat();
    find(&[], 0, &key) != Err(Refusal::UnsoundKey)
}

/// What is wrong with an SSN of nine bytes in EBCDIC; none where nothing is.
pub fn of_ssn(ssn: &[u8]) -> Option<String> {
    if ssn.len() != 9 || is_right(&[ssn]) {
        return None;
    }
    // an area from 900 on goes with every group and serial
    let front = argument(b"90000000");
    if !ssn.iter().all(|byte| is_right(&[&front, &[*byte]])) {
        return Some("not nine digits".to_string());
    }
    let (area, group, serial) = (argument(b"001"), argument(b"01"), argument(b"0001"));
    let parts = [
        ("area", &ssn[..3], is_right(&[&ssn[..3], &group, &serial])),
        ("group", &ssn[3..5], is_right(&[&area, &ssn[3..5], &serial])),
        ("serial", &ssn[5..], is_right(&[&area, &group, &ssn[5..]])),
    ];
    let form = Form::new(Charset::Ebcdic, Placeholder::Dot, false);
    let wrong = parts.iter().filter(|(_, _, is_right)| !is_right);
    let named = wrong.map(|(name, bytes, _)| {
        let mut text = format!("{name} ");
        form.put_text(bytes, &mut text);
        text
    });
    Some(named.collect::<Vec<_>>().join(", "))
}

#[cfg(test)]
mod tests {
    use super::*;

    #[test]
    fn kinds_of_faults() {
        for (ssn, fault) in [
            ("123456789", None),
            ("900000000", None),
            ("000456789", Some("area 000")),
            ("666456789", Some("area 666")),
            ("123006789", Some("group 00")),
            ("123450000", Some("serial 0000")),
            ("000000000", Some("area 000, group 00, serial 0000")),
            ("12345678 ", Some("not nine digits")),
            ("123-45-67", Some("not nine digits")),
        ] {
            assert_eq!(of_ssn(&argument(ssn.as_bytes())).as_deref(), fault, "{ssn}");
        }
    }
}
