//! The details of a batch from the lines of a CSV file.

use fantanolive::RECORD;

use super::columns::{Field, Kind};
use super::csv_columns::{columns_of, passed_over, Column};
use super::csv_digits::wrong_digits;
use super::csv_fields::{bytes_of, name_of, plain_ssn};
use super::csv_lines::Line;
use crate::code_page::{argument, Charset, Decoder};
use crate::quote::{quoted, quoted_ssn};

/// The records, and what is to be said of the columns.
#[derive(Debug)]
pub struct Details {
    pub bytes: Vec<u8>,
    pub notes: Vec<String>,
}

/// What is wrong, each with its line.
#[derive(Debug, Default)]
pub struct Errors {
    pub list: Vec<String>,
    /// Whether one is of a value that is taken as it stands where that is asked for.
    pub of_digits: bool,
}

/// How the cells are taken.
pub struct Reader {
    decoder: Decoder,
    /// Whether what is no number is taken in a column of digits, and a row of empty cells as a record.
    as_is: bool,
}

impl Reader {
    pub fn new(as_is: bool) -> Reader {
        Reader {
            decoder: Decoder::new(Charset::Ebcdic),
            as_is,
        }
    }

    /// The details of lines, the first of which names the columns.
    pub fn details(&self, lines: &[Line]) -> Result<Details, Errors> {
        let mut errors = Errors::default();
        let mut rows = lines.iter().filter(|line| self.as_is || !is_blank(line));
        let Some(first) = rows.next() else {
            errors
                .list
                .push("the file has no line of names".to_string());
            return Err(errors);
        };
        let columns = columns_of(first).map_err(|list| Errors {
            list,
            ..Errors::default()
        })?;
        let mut bytes = Vec::with_capacity(lines.len() * RECORD);
        for line in rows {
            see_cells(&columns, line, &mut errors);
            let mut record = argument(&[b' '; RECORD]);
            for (column, cell) in columns.iter().zip(&line.cells) {
                if let Column::Field(field) = column {
                    self.put(field, cell, line.number, &mut record, &mut errors);
                }
            }
            bytes.extend(record);
        }
        let notes = passed_over(&columns).into_iter().collect();
        match errors.list.is_empty() {
            true => Ok(Details { bytes, notes }),
            false => Err(errors),
        }
    }

    /// Puts a cell into its field, or an error to the others.
    fn put(&self, field: &Field, cell: &str, line: usize, record: &mut [u8], errors: &mut Errors) {
        let of_digits = wrong_digits(field, &plain_ssn(field, cell)).filter(|_| !self.as_is);
        let bytes = bytes_of(&self.decoder, field, cell);
        errors.of_digits |= of_digits.is_some() && bytes.is_ok();
        let wrong = match (of_digits, bytes) {
            (None, Ok(bytes)) => return field.set(record, &bytes),
            (Some(wrong), _) | (None, Err(wrong)) => wrong,
        };
        let value = match field.kind {
            Kind::Ssn => quoted_ssn(cell),
            _ => quoted(cell),
        };
        let name = name_of(field);
        errors
            .list
            .push(format!("line {line}, column {name}: {value} {wrong}"));
    }
}

fn is_blank(line: &Line) -> bool {
    line.cells.iter().all(|cell| cell.trim().is_empty())
}

/// Sees that no cell stands where the first line names nothing.
fn see_cells(columns: &[Column], line: &Line, errors: &mut Errors) {
    let is_named = |at: usize| {
        columns
            .get(at)
            .is_some_and(|&column| column != Column::Empty)
    };
    let mut cells = line.cells.iter().enumerate();
    let stray = cells.find(|(at, cell)| !cell.trim().is_empty() && !is_named(*at));
    if let Some((at, cell)) = stray {
        let (number, at, value) = (line.number, at + 1, quoted(cell));
        errors.list.push(format!(
            "line {number}: cell {at} is {value}, and the first line has no name there"
        ));
    }
}

#[cfg(test)]
mod tests {
    use super::super::csv_lines::lines_of;
    use super::*;

    fn details(text: &str, as_is: bool) -> Result<Details, Errors> {
        Reader::new(as_is).details(&lines_of(text).expect("it is CSV"))
    }

    fn records(text: &str, as_is: bool) -> usize {
        details(text, as_is).expect("they are details").bytes.len() / RECORD
    }

    #[test]
    fn rows_of_empty_cells() {
        let text = "ssn,case_id,\n,,\n012345678,A\n , ,\n";
        assert_eq!(records(text, false), 1);
        assert_eq!(records(text, true), 3);
        assert_eq!(records("ssn,case_id\n012345678,A,,,\n", false), 1);
        assert_eq!(records(",\nssn,case_id\n012345678,A\n", false), 1);
        let wrong = details("ssn,,\n012345678,,A\n", false).expect_err("A has no name");
        let words = "line 2: cell 3 is 'A', and the first line has no name there";
        assert_eq!(wrong.list, [words]);
    }

    #[test]
    fn values_that_are_no_digits() {
        let text = "ssn,arrearage_amount\n123.45.67,\"1,500\"\n";
        let wrong = details(text, false).expect_err("both are wrong");
        assert!(wrong.of_digits);
        let [ssn, amount] = &wrong.list[..] else {
            panic!("{wrong:?}");
        };
        assert!(
            ssn.starts_with("line 2, column ssn: '***.45.67' is no SSN"),
            "{ssn}"
        );
        assert!(
            amount.contains("'1,500' is no amount: whole dollars"),
            "{amount}"
        );
        assert_eq!(records(text, true), 1);
    }
}
