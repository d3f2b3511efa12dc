//! Values of a person's file as messages quote them: digits that may be those of an SSN are masked, and a long value is cut.

/// How many digits of a masked number are shown.
const SHOWN: usize = 4;

/// A number of so many digits may have an SSN in it.
const FEWEST: usize = 9;

/// How many characters of a value are quoted.
const MOST: usize = 40;

/// A value that may be anything, in quotation marks. Numbers of nine digits or more are masked, whatever but a letter stands
/// between the digits.
pub fn quoted(value: &str) -> String {
    let mut characters: Vec<char> = value.chars().collect();
    for run in characters.split_mut(|c| c.is_alphabetic()) {
        if run.iter().filter(|c| c.is_numeric()).count() >= FEWEST {
            mask(run);
        }
    }
    cut(characters)
}

/// A value of a column of SSNs, in quotation marks: all digits but the last four are masked.
pub fn quoted_ssn(value: &str) -> String {
    let mut characters: Vec<char> = value.chars().collect();
    mask(&mut characters);
    cut(characters)
}

fn mask(characters: &mut [char]) {
    let digits = characters.iter_mut().rev().filter(|c| c.is_numeric());
    digits.skip(SHOWN).for_each(|digit| *digit = '*');
}

fn cut(mut characters: Vec<char>) -> String {
    let is_long = characters.len() > MOST;
    characters.truncate(MOST);
    let text: String = characters.into_iter().collect();
    match is_long {
        true => format!("'{text} ..'"),
        false => format!("'{text}'"),
    }
}

#[cfg(test)]
mod tests {
    use super::*;

    #[test]
    fn numbers_that_may_be_ssns() {
        for (value, shown) in [
            ("123456789", "'*****6789'"),
            ("OH025100101000OH-1", "'OH********1000OH-1'"),
            ("123 45 6789", "'*** ** 6789'"),
            ("123.45.6789", "'***.**.6789'"),
            ("1234-56789", "'****-*6789'"),
            ("123\u{2013}45\u{2013}6789", "'***\u{2013}**\u{2013}6789'"),
            ("\u{FF11}23456789", "'*****6789'"),
            ("00001400", "'00001400'"),
            ("SMITH", "'SMITH'"),
            ("", "''"),
        ] {
            assert_eq!(quoted(value), shown);
        }
    }

    #[test]
    fn values_of_a_column_of_ssns() {
        assert_eq!(quoted_ssn("12345678"), "'****5678'");
        assert_eq!(quoted_ssn("123A45B6789"), "'***A**B6789'");
        assert_eq!(quoted_ssn("678"), "'678'");
    }

    #[test]
    fn long_values_are_cut() {
        let value = format!("{}123456789", "AB".repeat(19));
        assert_eq!(quoted(&value), format!("'{}** ..'", "AB".repeat(19)));
    }
}
