//! Columns of digits: what a cell of a CSV file must be there. Whether a value is right is for the library to say.

use super::columns::{detail, Field};

/// A column, how many digits it takes, and the same in words.
struct Digits {
    field: Field,
    lengths: &'static [usize],
    wanted: &'static str,
}

const fn digits(field: Field, lengths: &'static [usize], wanted: &'static str) -> Digits {
    Digits {
        field,
        lengths,
        wanted,
    }
}

const LOCAL_CODE: &str = "is no local code: three digits, or nothing";

/// The amount may have any number of digits: a long one doesn't fit its field.
const COLUMNS: [Digits; 7] = [
    digits(detail::LOCAL_CODE, &[3], LOCAL_CODE),
    digits(detail::SSN, &[9], "is no SSN: nine digits"),
    digits(
        detail::ARREARAGE,
        &[],
        "is no amount: whole dollars, digits only",
    ),
    digits(detail::TRANSFER_LOCAL_CODE, &[3], LOCAL_CODE),
    digits(detail::PROCESS_YEAR, &[4], "is no year: four digits"),
    digits(detail::ZIP, &[5, 9], "is no ZIP code: five or nine digits"),
    digits(
        detail::DATE_ISSUED,
        &[8],
        "is no date: CCYYMMDD, such as 20070115",
    ),
];

/// What may have happened to a number that is too short.
const ZEROS: &str = " (a spreadsheet may have taken zeros from its front)";

/// What is wrong with a cell of a column of digits; nothing is with a blank one. An SSN comes without its hyphens.
pub fn wrong_digits(field: &Field, cell: &str) -> Option<String> {
    let mut columns = COLUMNS.iter();
    let column = columns.find(|of| of.field.first == field.first && of.field == *field)?;
    if cell.trim_matches(' ').is_empty() {
        return None;
    }
    let are_digits = cell.bytes().all(|byte| byte.is_ascii_digit());
    let fits = column.lengths.is_empty() || column.lengths.contains(&cell.len());
    if are_digits && fits {
        return None;
    }
    let is_short = column
        .lengths
        .first()
        .is_some_and(|&least| cell.len() < least);
    let hint = if are_digits && is_short { ZEROS } else { "" };
    Some(format!("{}{hint}", column.wanted))
}

#[cfg(test)]
mod tests {
    use super::*;

    #[test]
    fn cells_of_digits() {
        for (field, right) in [
            (detail::LOCAL_CODE, "025"),
            (detail::LOCAL_CODE, ""),
            (detail::LOCAL_CODE, "   "),
            (detail::SSN, "012345678"),
            (detail::ARREARAGE, "5"),
            (detail::ARREARAGE, "00001500"),
            (detail::PROCESS_YEAR, "2007"),
            (detail::ZIP, "43215"),
            (detail::ZIP, "432151234"),
            (detail::DATE_ISSUED, "20070115"),
            (detail::CASE_ID, "A-1"),
        ] {
            assert_eq!(wrong_digits(&field, right), None, "{right}");
        }
    }

    #[test]
    fn cells_that_are_none() {
        for (field, cell, words) in [
            (
                detail::LOCAL_CODE,
                "25",
                "three digits, or nothing (a spreadsheet may",
            ),
            (detail::LOCAL_CODE, "OH1", "is no local code: three digits"),
            (
                detail::SSN,
                "12345678",
                "is no SSN: nine digits (a spreadsheet",
            ),
            (detail::SSN, "123 45 6789", "is no SSN: nine digits"),
            (detail::ARREARAGE, "1,500", "whole dollars, digits only"),
            (detail::ARREARAGE, "1500.00", "whole dollars, digits only"),
            (detail::ARREARAGE, "-1500", "whole dollars, digits only"),
            (detail::ARREARAGE, "(1,500)", "whole dollars, digits only"),
            (detail::ARREARAGE, "  50", "whole dollars, digits only"),
            (detail::PROCESS_YEAR, "07", "is no year: four digits"),
            (detail::ZIP, "4321", "five or nine digits (a spreadsheet"),
            (
                detail::ZIP,
                "43215-1234",
                "is no ZIP code: five or nine digits",
            ),
            (detail::DATE_ISSUED, "1/5/2007", "is no date: CCYYMMDD"),
            (detail::DATE_ISSUED, "01/15/2007", "is no date: CCYYMMDD"),
        ] {
            let wrong = wrong_digits(&field, cell).unwrap_or_default();
            assert!(wrong.contains(words), "{cell}: {wrong}");
        }
    }
}
