//! SSNs that stand anywhere in a text: nine digits in a row, or three, two and four with hyphens between them, have all but
//! their last four masked.

use std::borrow::Cow;

/// How many digits of an SSN are shown.
const SHOWN: usize = 4;

/// How many digits an SSN has.
const DIGITS: usize = 9;

/// A shorter text has none.
pub const SHORTEST: usize = DIGITS;

/// The places of hyphens in an SSN with hyphens, which has eleven characters.
const HYPHENS: [usize; 2] = [3, 6];
const WITH_HYPHENS: usize = 11;

/// A fingerprint has so many hexadecimal digits, which are no SSN.
const FINGERPRINT: usize = 64;

fn is_hexadecimal(byte: u8) -> bool {
    matches!(byte, b'0'..=b'9' | b'a'..=b'f')
}

/// The length of a run of bytes at the front.
fn run(bytes: &[u8], is_of: impl Fn(u8) -> bool) -> usize {
    bytes.iter().take_while(|&&byte| is_of(byte)).count()
}

/// Whether an SSN with hyphens stands at the front, with no digit behind it.
fn has_hyphens(bytes: &[u8]) -> bool {
    bytes.len() >= WITH_HYPHENS
        && !bytes.get(WITH_HYPHENS).is_some_and(u8::is_ascii_digit)
        && (0..WITH_HYPHENS).all(|at| match HYPHENS.contains(&at) {
            true => bytes[at] == b'-',
            false => bytes[at].is_ascii_digit(),
        })
}

fn mask(digits: &mut [u8]) {
    let end = digits.len() - SHOWN;
    let of_front = digits[..end]
        .iter_mut()
        .filter(|byte| byte.is_ascii_digit());
    of_front.for_each(|byte| *byte = b'*');
}

/// Whether a number is masked. One of nine digits that begins with 000 is no SSN: it is a count as the charts have it.
fn is_ssn(digits: &[u8], longer: bool) -> bool {
    (digits.len() == DIGITS || longer && digits.len() > DIGITS) && !digits.starts_with(b"000")
}

fn masked_with(text: &str, longer: bool) -> Cow<'_, str> {
    match may_have_ssn(text) {
        true => masked_slowly(text, longer),
        false => Cow::Borrowed(text),
    }
}

/// Whether nine digits, hyphens or what stands between them in ASCII stand in a row: of the bytes behind one that is none, every
/// ninth is looked at. A text without has no SSN.
pub fn may_have_ssn(text: &str) -> bool {
    let bytes = text.as_bytes();
    let is_part = |byte: u8| matches!(byte, b'-'..=b'9');
    let mut at = DIGITS - 1;
    while let Some(&byte) = bytes.get(at) {
        if is_part(byte) {
            let before = bytes[..at].iter().rev();
            let before = before.take_while(|&&byte| is_part(byte)).count();
            let behind = run(&bytes[at..], is_part);
            if before + behind >= DIGITS {
                return true;
            }
            at += behind;
        }
        at += DIGITS;
    }
    false
}

fn masked_slowly(text: &str, longer: bool) -> Cow<'_, str> {
    let mut bytes = text.as_bytes().to_vec();
    let mut at = 0;
    while at < bytes.len() {
        let rest = &mut bytes[at..];
        let digits = run(rest, |byte| byte.is_ascii_digit());
        let hexadecimal = run(rest, is_hexadecimal);
        at += if hexadecimal == FINGERPRINT && hexadecimal > digits {
            FINGERPRINT
        } else if has_hyphens(rest) {
            mask(&mut rest[..WITH_HYPHENS]);
            WITH_HYPHENS
        } else {
            if is_ssn(&rest[..digits], longer) {
                mask(&mut rest[..digits]);
            }
            digits.max(1)
        };
    }
    // digits became stars, one byte for one
    Cow::Owned(String::from_utf8(bytes).unwrap_or_default())
}

/// A text without SSNs: what every line that is printed goes through.
pub fn masked(text: &str) -> Cow<'_, str> {
    masked_with(text, false)
}

/// The same for a text that someone typed: longer numbers are masked too, since an SSN may stand in them.
pub fn masked_typed(text: &str) -> Cow<'_, str> {
    masked_with(text, true)
}

#[cfg(test)]
mod tests {
    use super::*;

    #[test]
    fn nine_digits_are_masked() {
        assert_eq!(masked("OH123456789N"), "OH*****6789N");
        assert_eq!(masked("123456789, 987654321"), "*****6789, *****4321");
        assert_eq!(masked("a 123-45-6789 b"), "a ***-**-6789 b");
        assert_eq!(masked("x123-45-6789-1"), "x***-**-6789-1");
        for plain in [
            "",
            "12345678",
            "1234567890",
            "000000012",
            "2007-12-31",
            "123-45-67890",
            "é",
        ] {
            assert_eq!(masked(plain), plain);
        }
    }

    #[test]
    fn ssns_at_every_place() {
        for ssn in ["123456789", "123-45-6789"] {
            for (front, behind) in (0..30).flat_map(|front| (0..12).map(move |end| (front, end))) {
                for other in ["x", "é", "-x", "12345678x", "1-x"] {
                    let (front, behind) = (other.repeat(front), "x".repeat(behind));
                    let text = format!("{front}{ssn}{behind}");
                    let shown = masked(&text);
                    assert!(!shown.contains(ssn) && shown.contains("6789"), "{text}");
                    assert_eq!(shown.len(), text.len());
                }
            }
        }
    }

    #[test]
    fn longer_numbers_that_were_typed() {
        assert_eq!(masked_typed("1234567890"), "******7890");
        assert_eq!(masked_typed("00000002500"), "00000002500");
    }

    #[test]
    fn fingerprints_are_no_ssns() {
        let print = format!("{}123456789", "abc0".repeat(20));
        let print = &print[print.len() - 64..];
        assert_eq!(masked(print), print);
        assert_eq!(masked(&"1".repeat(64)), "1".repeat(64));
        assert_eq!(
            masked_typed(&"1".repeat(64)),
            format!("{}1111", "*".repeat(60))
        );
    }

    #[test]
    fn nine_in_a_row_are_seen_at_every_place() {
        let mut chance = 7u64;
        for _ in 0..20_000 {
            chance = chance.wrapping_mul(6_364_136_223_846_793_005);
            chance = chance.wrapping_add(1);
            let bits = chance >> 20;
            // 44 bytes, of which three in four are parts of an SSN
            let byte = |place: u64| match (bits >> place) & (bits >> ((place + 7) % 44)) & 1 {
                0 => b"0189-./5"[place as usize % 8],
                _ => b' ',
            };
            let text: String = (0..44).map(byte).map(char::from).collect();
            let is_part = |byte: &u8| matches!(byte, b'-'..=b'9');
            let mut rows = text.as_bytes().windows(DIGITS);
            let has_row = rows.any(|row| row.iter().all(is_part));
            assert_eq!(may_have_ssn(&text), has_row, "{text}");
        }
    }
}
