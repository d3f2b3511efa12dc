//! Amounts to the cent: those of collection files, and the balances of rows, as they stand in their fields.

use super::columns::row;
use crate::failure::grouped;

fn is_digit(byte: &u8) -> bool {
    matches!(byte, 0xF0..=0xF9)
}

/// Whether bytes are digits, eight at a time: F is in front of each, and 6 more than what stands behind it is below 16.
fn are_digits(bytes: &[u8]) -> bool {
    let (eights, rest) = bytes.as_chunks();
    let are_eight = |bytes: &[u8; 8]| {
        let bytes = u64::from_ne_bytes(*bytes);
        let (front, behind) = (bytes & FRONT, bytes & BEHIND);
        front == FRONT && (behind + SIX) & FRONT == 0
    };
    eights.iter().all(are_eight) && rest.iter().all(is_digit)
}

/// The front halves of eight bytes, their other halves, and a 6 in each.
const FRONT: u64 = 0xF0F0_F0F0_F0F0_F0F0;
const BEHIND: u64 = 0x0F0F_0F0F_0F0F_0F0F;
const SIX: u64 = 0x0606_0606_0606_0606;

/// The number of digits in EBCDIC, whatever their signs.
pub fn number_of(digits: &[u8]) -> u64 {
    let (eights, rest) = digits.as_chunks();
    let front = eights
        .iter()
        .fold(0, |sum, digits| sum * 100_000_000 + of_eight(*digits));
    let add = |sum: u64, byte: &u8| sum * 10 + u64::from(byte & 0x0F);
    rest.iter().fold(front, add)
}

/// That of eight digits: pairs of them are added up at once, then pairs of pairs.
fn of_eight(digits: [u8; 8]) -> u64 {
    let ones = u64::from_le_bytes(digits) & BEHIND;
    let pairs = (ones * 10 + (ones >> 8)) & 0x00FF_00FF_00FF_00FF;
    let fours = (pairs * 100 + (pairs >> 16)) & 0x0000_FFFF_0000_FFFF;
    (fours * 10_000 + (fours >> 32)) & 0xFFFF_FFFF
}

/// The digits of at most 16 numbers, added up place by place: no sum passes its byte.
#[derive(Clone, Copy, Default)]
pub struct Places(u64);

impl Places {
    /// How many numbers may be added up.
    pub const MOST: usize = 16;

    /// Adds the digits, at most eight, that end at a column of a record; at least eight bytes stand up to there.
    pub fn add<const WIDTH: usize>(&mut self, record: &[u8; WIDTH], last: usize, digits: usize) {
        let mut eight = [0; 8];
        eight.copy_from_slice(&record[last - 8..last]);
        let others = 8 * (8 - digits);
        self.0 += u64::from_le_bytes(eight) & (BEHIND >> others << others);
    }

    /// The sum of the numbers: pairs of places are added up at once, then pairs of pairs.
    pub fn sum(self) -> u64 {
        let (pair, four) = (0x00FF_00FF_00FF_00FF, 0x0000_FFFF_0000_FFFF);
        let pairs = (self.0 & pair) * 10 + (self.0 >> 8 & pair);
        let fours = (pairs & four) * 100 + (pairs >> 16 & four);
        (fours & 0xFFFF_FFFF) * 10_000 + (fours >> 32)
    }
}

/// The cents of an amount of a collection file: digits, the last of which may carry a positive sign. None where it is no such
/// amount.
pub fn cents_of(bytes: &[u8]) -> Option<u64> {
    let (last, front) = bytes.split_last()?;
    let is_last = is_digit(last) || matches!(last, 0xC0..=0xC9);
    (is_last && are_digits(front)).then(|| number_of(bytes))
}

/// The balance of a sound row in cents.
pub fn balance_of(bytes: &[u8]) -> u64 {
    number_of(row::ARREARAGE.of(bytes)) * 100 + number_of(row::CENTS.of(bytes))
}

/// `1,234.56`.
pub fn money(cents: u64) -> String {
    format!("{}.{:02}", grouped(cents / 100), cents % 100)
}

#[cfg(test)]
mod tests {
    use super::*;
    use crate::code_page::argument;

    #[test]
    fn numbers_of_every_length() {
        for text in [
            "",
            "7",
            "90",
            "12345678",
            "98765432109",
            "00000000",
            "99999999",
            "9876543210123456",
        ] {
            let wanted = text.parse().unwrap_or(0);
            assert_eq!(number_of(&argument(text.as_bytes())), wanted, "{text}");
        }
        for place in 0..8 {
            let text = format!("{:08}", 9 * 10u64.pow(place) + 1);
            assert_eq!(
                number_of(&argument(text.as_bytes())),
                text.parse().unwrap_or(0)
            );
        }
    }

    #[test]
    fn numbers_added_up_by_their_places() {
        let mut record = [0xFF; 30];
        for (last, digits) in (1..=8).flat_map(|digits| [8, 19, 30].map(|last| (last, digits))) {
            // nines, and the most that the lower half of a byte may be
            for byte in [0xF9, 0xCF] {
                record[last - digits..last].fill(byte);
                let number = number_of(&record[last - digits..last]);
                let mut places = Places::default();
                for count in 1..=Places::MOST as u64 {
                    places.add(&record, last, digits);
                    assert_eq!(places.sum(), count * number, "{last} {digits}");
                }
            }
        }
        let mut places = Places::default();
        let numbers = [12_345_678, 0, 99_999_999, 10_000_000, 1];
        for number in numbers {
            let digits = argument(format!("{number:08}").as_bytes());
            places.add::<8>(&digits.try_into().expect("they are eight"), 8, 8);
        }
        assert_eq!(places.sum(), numbers.iter().sum::<u64>());
    }

    #[test]
    fn digits_at_every_place() {
        for (place, byte) in (0..11).flat_map(|place| (0..=255).map(move |byte| (place, byte))) {
            let mut bytes = [0xF5; 11];
            bytes[place] = byte;
            assert_eq!(are_digits(&bytes), is_digit(&byte), "{place} {byte}");
        }
    }

    #[test]
    fn amounts_and_what_are_none() {
        let amount = |text: &str| argument(text.as_bytes());
        assert_eq!(cents_of(&amount("00000012345")), Some(12_345));
        assert_eq!(cents_of(&amount("0000001234E")), Some(12_345));
        assert_eq!(cents_of(&amount("99999999999")), Some(99_999_999_999));
        for none in ["0000001234N", "00000 12345", "", "0000E012345"] {
            assert_eq!(cents_of(&amount(none)), None, "{none}");
        }
        assert_eq!(cents_of(&[0xF0, 0xC0]), Some(0));
        assert_eq!(money(123_456), "1,234.56");
        assert_eq!(money(5), "0.05");
    }
}
