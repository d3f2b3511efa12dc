//! Numbers in digits.

/// The most digits of a number.
const MOST: usize = 20;

/// The digits of a number.
pub struct Digits {
    list: [u8; MOST],
    start: usize,
}

impl Digits {
    pub fn of(number: u64) -> Digits {
        let mut digits = Digits {
            list: [b'0'; MOST],
            start: MOST - 1,
        };
        let mut rest = number;
        while rest > 9 {
            digits.list[digits.start] = b'0' + (rest % 10) as u8;
            rest /= 10;
            digits.start -= 1;
        }
        digits.list[digits.start] = b'0' + rest as u8;
        digits
    }

    pub fn bytes(&self) -> &[u8] {
        &self.list[self.start..]
    }
}

/// Writes a number.
pub fn put_number(number: u64, out: &mut String) {
    let digits = Digits::of(number);
    out.extend(digits.bytes().iter().map(|&digit| char::from(digit)));
}

#[cfg(test)]
mod tests {
    use super::*;

    #[test]
    fn numbers_of_every_length() {
        let powers = (0..20).map(|power| 10u64.pow(power));
        let around = powers.flat_map(|power| [power - 1, power, power + 1, power | 12345]);
        for number in around.chain([u64::MAX]) {
            assert_eq!(Digits::of(number).bytes(), number.to_string().as_bytes());
        }
        let mut text = "a ".to_string();
        put_number(120, &mut text);
        assert_eq!(text, "a 120");
    }
}
